//! The text form of lists of calls: one call a line, with dates as people write them. docs/CALLS.md describes it.
mod call;
mod cursor;
mod date;
mod fields;
mod policy;
mod print;
#[cfg(test)]
mod tests;
mod zone;

pub use call::severity_named;
pub use cursor::Fault;
pub use print::{line, quoted_for_page};
pub use zone::Zone;

use crate::list::{opens_with, List};
use alarm_register::{check_call, Limits, Refusal};
use cursor::Cursor;
use date::Calendar;

/// The list that a text describes, or its first fault.
pub fn read(text: &str) -> Result<List, Fault> {
    let mut reading = Reading { limits: None, answer: None, calendar: Calendar::default(), calls: Vec::new() };
    let mut lines = 0;
    for (place, line) in text.lines().enumerate() {
        lines = place + 1;
        reading.line(&mut Cursor::new(line)).map_err(|fault| fault.on(lines))?;
    }
    let limits = reading.limits.ok_or_else(|| missing_limits().on(lines.max(1)))?;
    Ok(List { limits, answer: reading.answer, calls: reading.calls })
}

/// The text that describes a list, with the times of a zone, and each call's number behind it where that is wanted.
pub fn write(list: &List, zone: Zone, numbered: bool) -> String {
    let Limits { active, history, audit } = list.limits;
    let mut text = format!("limits active={active} history={history} audit={audit}\n");
    if let Some(length) = list.answer {
        text += &format!("answer {length}\n");
    }
    if zone != Zone::default() {
        text += &format!("zone {zone}\n");
    }
    let number = |place: usize| if numbered { format!(" # call {}", place + 1) } else { String::new() };
    text.extend(list.calls.iter().enumerate().map(|(place, call)| line(call, zone) + &number(place) + "\n"));
    text
}

/// What was read of a text so far.
struct Reading {
    limits: Option<Limits>,
    answer: Option<u32>,
    calendar: Calendar,
    calls: Vec<Vec<u8>>,
}

impl Reading {
    fn line(&mut self, line: &mut Cursor<'_>) -> Result<(), Fault> {
        line.blanks();
        if line.at_end() {
            return Ok(());
        }
        match line.peek_word() {
            "limits" => self.limits(line),
            "answer" => self.answer(line),
            "day" => {
                line.word();
                line.blanks();
                self.calendar.day(line)?;
                line.end()
            }
            "zone" => {
                line.word();
                line.blanks();
                let start = line.clone();
                self.calendar.zone(Zone::of(line.word()).map_err(|fault| fault.at(&start))?);
                line.end()
            }
            _ => self.call(line),
        }
    }

    fn limits(&mut self, line: &mut Cursor<'_>) -> Result<(), Fault> {
        let place = line.clone();
        line.word();
        if self.limits.is_some() || !self.calls.is_empty() {
            return Err(place.fault("the limits stand once, before the first call"));
        }
        let mut fields = fields::read(line)?;
        let (active, history, audit) = (fields.number("active")?, fields.number("history")?, fields.number("audit")?);
        fields.none_left("limits")?;
        let limits = Limits { active, history, audit };
        opens_with(limits).map_err(|fault| place.fault(&fault))?;
        self.limits = Some(limits);
        Ok(())
    }

    fn answer(&mut self, line: &mut Cursor<'_>) -> Result<(), Fault> {
        let start = line.fault("the answer's length stands once, before the first call");
        line.word();
        line.blanks();
        if self.answer.is_some() || !self.calls.is_empty() {
            return Err(start);
        }
        let place = line.fault("the length of every answer slice is a number from 1 to 4294967295");
        match line.word().parse() {
            Ok(length) if length > 0 => self.answer = Some(length),
            _ => return Err(place),
        }
        line.end()
    }

    fn call(&mut self, line: &mut Cursor<'_>) -> Result<(), Fault> {
        let start = line.clone();
        if self.limits.is_none() {
            return Err(missing_limits().at(&start));
        }
        let parsed = call::read(line, &self.calendar)?;
        if parsed.judged {
            check_call(&parsed.bytes)
                .map_err(|refusal| parsed.place(refusal).unwrap_or_else(|| start.fault(&refusal.to_string())))?;
        }
        self.calls.push(parsed.bytes);
        Ok(())
    }
}

fn missing_limits() -> Fault {
    Fault::new(1, "the register's limits are missing: begin with a line such as `limits active=16 history=64 audit=16`")
}

/// A call that was read from a line.
pub(crate) struct Parsed {
    bytes: Vec<u8>,
    /// Whether a register must take it: raw bytes may be anything.
    judged: bool,
    /// Where its cause, its region and its end stand.
    cause: Option<usize>,
    region: Option<usize>,
    end: Option<usize>,
}

impl Parsed {
    /// Where a person should look for what a register refuses.
    fn place(&self, refusal: Refusal) -> Option<Fault> {
        let column = match refusal {
            Refusal::Cause => self.cause,
            Refusal::Region => self.region,
            Refusal::End => self.end,
            _ => None,
        }?;
        let hint = match refusal {
            Refusal::Cause => "; one of your own needs a dot, as other:ropeway.sheave-wear",
            Refusal::End => "; write its date where it is on another day",
            _ => "; leave the field out",
        };
        Some(Fault::new(column, &format!("{}{hint}", refusal.sentence())))
    }
}
