//! Zones: how far clocks are ahead of UTC.
use super::cursor::{Cursor, Fault};
use super::date;
use alarm_register::Time;
use std::fmt;

const SECOND: i64 = 1_000_000_000;

/// Seconds by which clocks are ahead of UTC.
#[derive(Clone, Copy, Debug, Default, PartialEq, Eq)]
pub struct Zone(i64);

impl Zone {
    /// The zone of a word such as `+01:00`, `Z` or `UTC`.
    pub fn of(word: &str) -> Result<Zone, Fault> {
        let mut line = Cursor::new(word);
        let zone = Zone::read(&mut line)?;
        zone.filter(|_| line.at_end())
            .ok_or_else(|| Fault::new(1, "a zone is Z, UTC or hours and minutes ahead of UTC, as +01:00"))
    }

    /// Reads a zone where one is written; passes over blanks before it.
    pub fn read(line: &mut Cursor<'_>) -> Result<Option<Zone>, Fault> {
        let before = line.clone();
        line.blanks();
        if line.peek_word() == "UTC" {
            line.word();
            return Ok(Some(Zone::default()));
        }
        if line.skip('Z') {
            return Ok(Some(Zone::default()));
        }
        let sign = match line.peek() {
            Some('+') => 1,
            Some('-') => -1,
            _ => {
                *line = before;
                return Ok(None);
            }
        };
        line.next();
        let far = before.fault("a zone is at most 14 hours from UTC, and written as +01:00");
        let digits = |line: &mut Cursor<'_>| line.take_while(|c| c.is_ascii_digit()).parse::<i64>().ok();
        let hours = digits(line).filter(|hours| *hours <= 14).ok_or_else(|| far.clone())?;
        let minutes = if line.skip(':') { digits(line).filter(|minutes| *minutes <= 59).ok_or(far)? } else { 0 };
        Ok(Some(Zone(sign * (hours * 60 + minutes) * 60)))
    }

    /// Nanoseconds to take off a clock's time to have UTC.
    pub fn nanoseconds(self) -> i64 {
        self.0 * SECOND
    }

    /// The zone's name for people.
    pub fn name(self) -> String {
        if self == Zone::default() {
            "UTC".to_string()
        } else {
            format!("UTC{self}")
        }
    }

    /// A time as clocks of the zone show it. Where they cannot, at both ends of time, it is UTC and says so.
    pub fn show(self, time: Time) -> String {
        match self.shifted(time) {
            Some(shown) => shown.to_string(),
            None => format!("{time}Z"),
        }
    }

    /// The same in two lines: the date as people write it, and the clock.
    pub fn show_in_lines(self, time: Time) -> [String; 2] {
        let shown = self.show(time);
        let clock = shown.split_once(' ').map_or("", |(_, clock)| clock).to_string();
        let (date, _) = self.shifted(time).unwrap_or(time).date();
        [date::written(date), clock]
    }

    fn shifted(self, time: Time) -> Option<Time> {
        time.0.checked_add(self.nanoseconds()).map(Time)
    }
}

impl fmt::Display for Zone {
    /// As a line `zone` has it.
    fn fmt(&self, f: &mut fmt::Formatter<'_>) -> fmt::Result {
        if self.0 == 0 {
            return f.write_str("UTC");
        }
        let minutes = self.0.abs() / 60;
        write!(f, "{}{:02}:{:02}", if self.0 < 0 { '-' } else { '+' }, minutes / 60, minutes % 60)
    }
}
