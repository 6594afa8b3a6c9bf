//! Dates and times as people write them.
use super::cursor::{Cursor, Fault};
use super::zone::Zone;
use alarm_register::{Date, Time};

const FORMS: &str =
    "a time is written as 2026-03-14 09:30, 14.3.2026 09:30:05.25 or 14 March 2026 09:30, with Z or +01:00 behind it if need be";
const MONTHS: [&str; 12] =
    ["January", "February", "March", "April", "May", "June", "July", "August", "September", "October", "November", "December"];
const SECOND: i64 = 1_000_000_000;

/// What lines before said on days and zones.
#[derive(Clone, Copy, Debug, Default)]
pub struct Calendar {
    day: Option<Date>,
    zone: Zone,
}

impl Calendar {
    /// Reads the day that times without one belong to.
    pub fn day(&mut self, line: &mut Cursor<'_>) -> Result<(), Fault> {
        self.day = Some(date(line)?);
        Ok(())
    }

    /// Takes the zone that times without one belong to.
    pub fn zone(&mut self, zone: Zone) {
        self.zone = zone;
    }

    /// Reads a time, with its date where no day was given before.
    pub fn time(&self, line: &mut Cursor<'_>) -> Result<Time, Fault> {
        let start = line.clone();
        let alone = start.peek_word().split_once(':').is_some_and(|(hours, _)| hours.chars().all(|c| c.is_ascii_digit()));
        let date = match (alone, self.day) {
            (false, _) => {
                let date = date(line)?;
                if !line.skip('T') {
                    line.blanks();
                }
                date
            }
            (true, Some(day)) => day,
            (true, None) => return Err(start.fault("this time has no date, and no line `day 2026-03-14` stands before it")),
        };
        let clock = clock(line)?;
        let zone = Zone::read(line)?.unwrap_or(self.zone);
        if !matches!(line.peek(), None | Some(' ' | '\t' | '#')) {
            return Err(line.fault(FORMS));
        }
        let range = "this time is out of range: 1677-09-21 to 2262-04-11";
        Time::from_date(date, clock - zone.nanoseconds()).ok_or_else(|| start.fault(range))
    }
}

/// A number of one to `most` digits.
fn number(line: &mut Cursor<'_>, most: usize) -> Result<i64, Fault> {
    let place = line.fault(FORMS);
    let digits = line.take_while(|c| c.is_ascii_digit());
    if digits.is_empty() || digits.len() > most {
        return Err(place);
    }
    digits.parse().map_err(|_| place)
}

fn date(line: &mut Cursor<'_>) -> Result<Date, Fault> {
    let start = line.clone();
    let first = number(line, 4)?;
    let (year, month, day) = if line.skip('-') {
        let month = number(line, 2)?;
        (first, month, line.skip('-').then(|| number(line, 2)).ok_or_else(|| line.fault(FORMS))??)
    } else if line.skip('.') {
        line.blanks();
        let month = number(line, 2)?;
        (line.skip('.').then(|| number(line, 4)).ok_or_else(|| line.fault(FORMS))??, month, first)
    } else if line.peek() == Some(' ') {
        line.blanks();
        let month = month(line)?;
        line.blanks();
        (number(line, 4)?, month, first)
    } else {
        return Err(line.fault(FORMS));
    };
    let exists = u8::try_from(month).ok().zip(u8::try_from(day).ok()).and_then(|(month, day)| Date::new(year, month, day));
    exists.ok_or_else(|| start.fault("the calendar has no such day"))
}

/// A date as a page shows it: `14 Mar 2026`.
pub fn written(date: Date) -> String {
    format!("{} {:.3} {}", date.day, MONTHS[usize::from(date.month) - 1], date.year)
}

fn month(line: &mut Cursor<'_>) -> Result<i64, Fault> {
    let place = line.fault(FORMS);
    let name = line.take_while(char::is_alphabetic).to_lowercase();
    line.skip('.');
    let found = MONTHS.iter().position(|month| name.len() >= 3 && month.to_lowercase().starts_with(&name));
    found.map(|place| place as i64 + 1).ok_or(place)
}

/// Nanoseconds from midnight.
fn clock(line: &mut Cursor<'_>) -> Result<i64, Fault> {
    let start = line.clone();
    let hours = number(line, 2)?;
    if !line.skip(':') {
        return Err(line.fault(FORMS));
    }
    let minutes = number(line, 2)?;
    let seconds = if line.skip(':') { number(line, 2)? } else { 0 };
    let fraction = if line.skip('.') { fraction(line)? } else { 0 };
    if hours > 23 || minutes > 59 || seconds > 59 {
        return Err(start.fault("no clock shows this time"));
    }
    Ok(((hours * 60 + minutes) * 60 + seconds) * SECOND + fraction)
}

fn fraction(line: &mut Cursor<'_>) -> Result<i64, Fault> {
    let place = line.fault("a second has one to nine decimals");
    let digits = line.take_while(|c| c.is_ascii_digit());
    if digits.is_empty() || digits.len() > 9 {
        return Err(place);
    }
    format!("{digits:0<9}").parse().map_err(|_| place)
}

#[cfg(test)]
mod tests {
    use super::{Calendar, Cursor, Date};

    fn time(text: &str) -> String {
        let mut calendar = Calendar::default();
        calendar.day(&mut Cursor::new("2026-03-15")).unwrap();
        match calendar.time(&mut Cursor::new(text)) {
            Ok(time) => time.to_string(),
            Err(fault) => fault.to_string(),
        }
    }

    #[test]
    fn dates_that_people_write() {
        for text in
            ["2026-03-14 09:30", "2026-03-14T09:30:00Z", "14.3.2026 09:30", "14.03.2026 10:30 +01:00", "14 March 2026 9:30 UTC"]
        {
            assert_eq!(time(text), "2026-03-14 09:30:00", "{text}");
        }
        assert_eq!(time("14 Mar. 2026 09:30:05.250"), "2026-03-14 09:30:05.25");
        assert_eq!(time("07:15"), "2026-03-15 07:15:00");
        assert_eq!(time("2026-03-14 00:30 +01:00"), "2026-03-13 23:30:00");
    }

    #[test]
    fn a_date_on_a_page_can_be_read_again() {
        for (year, month, day) in [(2026, 3, 14), (1999, 12, 31), (2024, 2, 29)] {
            let date = Date::new(year, month, day).unwrap();
            assert_eq!(super::date(&mut Cursor::new(&super::written(date))), Ok(date));
        }
        assert_eq!(super::written(Date::new(2026, 3, 4).unwrap()), "4 Mar 2026");
    }

    #[test]
    fn dates_that_they_do_not() {
        assert_eq!(time("2026-02-29 09:30"), "line 1, column 1: the calendar has no such day");
        assert_eq!(time("2026-03-14 24:30"), "line 1, column 12: no clock shows this time");
        assert!(time("03/14/2026 09:30").starts_with("line 1, column 3: a time is written as"));
        assert!(time("2026-03-14").starts_with("line 1, column 11: a time is written as"));
        assert!(time("2026-03-14 09:30x").starts_with("line 1, column 17: a time is written as"));
        assert!(time("2300-01-01 00:00").ends_with("out of range: 1677-09-21 to 2262-04-11"));
    }
}
