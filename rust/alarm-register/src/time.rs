//! Times: nanoseconds from 1970 UTC, and the dates that people write for them.
use core::fmt;

/// A time, as a signed count of nanoseconds from the start of 1970 UTC: years 1677 to 2262.
///
/// ```
/// use alarm_register::Time;
/// let noon = Time::from_seconds(1_773_489_600).unwrap();
/// assert_eq!(noon.to_string(), "2026-03-14 12:00:00");
/// assert_eq!(Time(noon.0 + 5_000_000).to_string(), "2026-03-14 12:00:00.005");
/// ```
#[derive(Clone, Copy, Debug, PartialEq, Eq, Hash, PartialOrd, Ord)]
pub struct Time(pub i64);

const SECOND: i64 = 1_000_000_000;
const DAY: i64 = 86_400;

/// A day of the calendar, proleptic Gregorian.
#[derive(Clone, Copy, Debug, PartialEq, Eq)]
pub struct Date {
    /// The year.
    pub year: i64,
    /// 1 to 12.
    pub month: u8,
    /// 1 to the month's last.
    pub day: u8,
}

impl Date {
    /// The date, if the calendar has it.
    pub fn new(year: i64, month: u8, day: u8) -> Option<Date> {
        let long = [31, if leap(year) { 29 } else { 28 }, 31, 30, 31, 30, 31, 31, 30, 31, 30, 31];
        let last = *long.get(usize::from(month).checked_sub(1)?)?;
        (1..=last).contains(&day).then_some(Date { year, month, day })
    }

    /// Days from 1970-01-01.
    fn days(self) -> i64 {
        // years and months counted from a March, so that a leap day ends its year
        let early = i64::from(self.month <= 2);
        let year = self.year - early;
        let month = i64::from(self.month) + 12 * early - 3;
        let in_year = (153 * month + 2) / 5 + i64::from(self.day) - 1;
        year * 365 + year.div_euclid(4) - year.div_euclid(100) + year.div_euclid(400) + in_year - 719_468
    }

    /// The date of a number of days from 1970-01-01.
    fn of_days(days: i64) -> Date {
        let days = days + 719_468;
        let (cycle, left) = (days.div_euclid(146_097), days.rem_euclid(146_097));
        let year = (left - left / 1_460 + left / 36_524 - left / 146_096) / 365;
        let in_year = left - (365 * year + year / 4 - year / 100);
        let month = (5 * in_year + 2) / 153;
        let day = in_year - (153 * month + 2) / 5 + 1;
        let late = i64::from(month >= 10);
        Date { year: cycle * 400 + year + late, month: (month + 3 - 12 * late) as u8, day: day as u8 }
    }
}

fn leap(year: i64) -> bool {
    year % 4 == 0 && (year % 100 != 0 || year % 400 == 0)
}

impl Time {
    /// The time that many seconds after the start of 1970, if it is in range.
    pub fn from_seconds(seconds: i64) -> Option<Time> {
        seconds.checked_mul(SECOND).map(Time)
    }

    /// The time of a day: `nanoseconds` from its midnight UTC, if it is in range.
    pub fn from_date(date: Date, nanoseconds: i64) -> Option<Time> {
        let at = i128::from(date.days()) * i128::from(DAY * SECOND) + i128::from(nanoseconds);
        i64::try_from(at).ok().map(Time)
    }

    /// The day, and the nanoseconds from its midnight UTC.
    pub fn date(self) -> (Date, i64) {
        let length = DAY * SECOND;
        (Date::of_days(self.0.div_euclid(length)), self.0.rem_euclid(length))
    }
}

impl fmt::Display for Time {
    /// As `2026-03-14 12:00:00`, UTC, with as many decimals of a second as there are.
    fn fmt(&self, f: &mut fmt::Formatter<'_>) -> fmt::Result {
        let (date, within) = self.date();
        let (seconds, mut fraction) = (within / SECOND, within % SECOND);
        write!(f, "{:04}-{:02}-{:02} ", date.year, date.month, date.day)?;
        write!(f, "{:02}:{:02}:{:02}", seconds / 3600, seconds / 60 % 60, seconds % 60)?;
        if fraction == 0 {
            return Ok(());
        }
        let mut digits = 9;
        while fraction % 10 == 0 {
            fraction /= 10;
            digits -= 1;
        }
        write!(f, ".{fraction:0digits$}")
    }
}

#[cfg(test)]
mod tests {
    use super::{Date, Time};

    #[test]
    fn every_date_comes_back() {
        for days in (-107_000..107_000).step_by(37) {
            let date = Date::of_days(days);
            assert_eq!(date.days(), days);
            assert_eq!(Date::new(date.year, date.month, date.day), Some(date));
        }
        assert_eq!(Date::of_days(19_782), Date { year: 2024, month: 2, day: 29 });
        assert_eq!(Date::of_days(-25_509), Date { year: 1900, month: 2, day: 28 });
        assert_eq!(Date::of_days(-25_508), Date { year: 1900, month: 3, day: 1 });
    }

    #[test]
    fn both_ends_of_time_come_back() {
        for time in [Time(i64::MIN), Time(-1), Time(0), Time(i64::MAX)] {
            let (date, within) = time.date();
            assert_eq!(Time::from_date(date, within), Some(time));
        }
        assert_eq!(Time::from_date(Date { year: 2262, month: 4, day: 12 }, 0), None);
    }

    #[test]
    fn dates_that_the_calendar_has_not() {
        assert_eq!(Date::new(2026, 2, 29), None);
        assert_eq!(Date::new(2100, 2, 29), None);
        assert_eq!(Date::new(2026, 0, 1), None);
        assert_eq!(Date::new(2026, 13, 1), None);
        assert_eq!(Date::new(2026, 4, 31), None);
    }
}
