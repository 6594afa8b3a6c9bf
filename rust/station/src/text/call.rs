//! Calls, read from lines.
use super::cursor::{Cursor, Fault};
use super::date::Calendar;
use super::fields::{self, Fields, Value};
use super::policy::{self, SUPPRESS_UNTIL};
use super::Parsed;
use alarm_register::layout::longest;
use alarm_register::{
    Action, Call, Clear, CountActive, Expire, Lift, ListActive, ListHistory, Object, PlainAction, Raise, Severity, Summarise,
    TakeAudit, Time, TEXT_CODE_POINTS,
};

const OPERATIONS: &str = "an operation is raise, clear, acknowledge, suppress, acknowledge-with-policy, suppress-with-policy, \
                          suppress-until, expire, lift, active, history, counts, summary, take-audit or raw";
/// Operations that begin with their time.
const TIMED: [&str; 7] =
    ["raise", "clear", "acknowledge", "suppress", "acknowledge-with-policy", "suppress-with-policy", SUPPRESS_UNTIL];
/// Operations with a cutoff, and the word before it.
const CUTOFFS: [(&str, &str); 2] = [("expire", "before"), ("lift", "up-to")];

/// The call of a line.
pub fn read(line: &mut Cursor<'_>, calendar: &Calendar) -> Result<Parsed, Fault> {
    let time = if line.peek().is_some_and(|c| c.is_ascii_digit()) { Some(calendar.time(line)?) } else { None };
    line.blanks();
    let start = line.clone();
    let word = line.word();
    match time {
        Some(time) if word == SUPPRESS_UNTIL => policy::suppress_until(time, line, calendar),
        Some(time) if TIMED.contains(&word) => timed(word, time, line),
        None if TIMED.contains(&word) => {
            Err(start.fault(&format!("{word} needs its time before it, as 2026-03-14 09:30 {word}")))
        }
        Some(_) if cutoff_word(word).is_some() => Err(start.fault(&format!("the cutoff stands behind: {}", with_cutoff(word)))),
        Some(_) if !OPERATIONS.split([' ', ',']).any(|known| known == word) => Err(start.fault(OPERATIONS)),
        Some(_) => Err(start.fault(&format!("{word} has no time"))),
        None => untimed(word, &start, line, calendar),
    }
}

/// A call that has no place where a person should look for what a register refuses.
pub fn plain(call: Call<'_>) -> Parsed {
    Parsed { bytes: call.bytes().as_bytes().to_vec(), judged: true, cause: None, region: None, end: None }
}

fn timed(word: &str, time: Time, line: &mut Cursor<'_>) -> Result<Parsed, Fault> {
    let mut fields = fields::read(line)?;
    let parsed = match word {
        "raise" => raise(time, &mut fields)?,
        "clear" => clear(time, &mut fields)?,
        "acknowledge" => plain_action(Action::Acknowledge, time, &mut fields)?,
        "suppress" => plain_action(Action::Suppress, time, &mut fields)?,
        "acknowledge-with-policy" => policy::action(Action::Acknowledge, time, &mut fields)?,
        _ => policy::action(Action::Suppress, time, &mut fields)?,
    };
    fields.none_left(word).map(|()| parsed)
}

fn untimed(word: &str, start: &Cursor<'_>, line: &mut Cursor<'_>, calendar: &Calendar) -> Result<Parsed, Fault> {
    match word {
        "expire" => return Ok(plain(Call::Expire(Expire { before: cutoff(word, line, calendar)? }))),
        "lift" => return Ok(plain(Call::Lift(Lift { up_to: cutoff(word, line, calendar)? }))),
        "raw" => return raw(line),
        _ => {}
    }
    let mut fields = fields::read(line)?;
    let parsed = match word {
        "active" => plain(Call::ListActive(ListActive { severity: fields.maybe("severity").map(severity).transpose()? })),
        "history" => {
            let (tenant, slice) = (fields.option("tenant", longest::TENANT)?, fields.option("slice", longest::SLICE)?);
            plain(Call::ListHistory(ListHistory { tenant: tenant.as_deref(), slice: slice.as_deref() }))
        }
        "counts" => plain(Call::CountActive(CountActive)),
        "summary" => plain(Call::Summarise(Summarise)),
        "take-audit" => plain(Call::TakeAudit(TakeAudit { at_most: fields.number("at-most")? })),
        _ => return Err(start.fault(OPERATIONS)),
    };
    fields.none_left(word).map(|()| parsed)
}

/// The word before an operation's cutoff, if it has one.
fn cutoff_word(operation: &str) -> Option<&'static str> {
    CUTOFFS.into_iter().find_map(|(known, word)| (known == operation).then_some(word))
}

/// How an operation is written with its cutoff.
fn with_cutoff(operation: &str) -> String {
    format!("{operation} {} 2026-03-14 09:30", cutoff_word(operation).unwrap_or_default())
}

/// The cutoff, which is all that an operation has.
fn cutoff(operation: &str, line: &mut Cursor<'_>, calendar: &Calendar) -> Result<Time, Fault> {
    line.blanks();
    let place = line.fault(&format!("the cutoff is written: {}", with_cutoff(operation)));
    if Some(line.word()) != cutoff_word(operation) {
        return Err(place);
    }
    line.blanks();
    let cutoff = calendar.time(line)?;
    line.end().map(|()| cutoff)
}

fn raw(line: &mut Cursor<'_>) -> Result<Parsed, Fault> {
    line.blanks();
    let place = line.fault("raw bytes are written as pairs of hexadecimal digits");
    let digits = line.take_while(|c| c.is_ascii_hexdigit());
    line.end()?;
    if digits.len() % 2 != 0 {
        return Err(place);
    }
    let pair = |at: usize| u8::from_str_radix(&digits[at..at + 2], 16).map_err(|_| place.clone());
    let bytes = (0..digits.len()).step_by(2).map(pair).collect::<Result<_, _>>()?;
    Ok(Parsed { bytes, judged: false, cause: None, region: None, end: None })
}

fn raise(time: Time, fields: &mut Fields) -> Result<Parsed, Fault> {
    let (id, alarm_type) = (fields.string("id", longest::ID)?, fields.string("type", longest::TYPE)?);
    let severity = severity(fields.need("severity")?)?;
    let key = KeyFields::read(fields)?;
    let text =
        fields.maybe("text").map(|value| value.text("text", longest::TEXT, TEXT_CODE_POINTS)).transpose()?.unwrap_or_default();
    let details = fields.maybe("details").map(|value| value.plain("details", longest::DETAILS)).transpose()?;
    let call = Raise {
        tenant: key.tenant.as_deref(),
        slice: key.slice.as_deref(),
        region: key.region.as_deref(),
        text: &text,
        details: details.as_deref(),
        ..Raise::new(time, &id, &alarm_type, severity, &key.cause, key.object.borrow()?)
    };
    Ok(Parsed { cause: Some(key.cause_column), region: key.region_column, ..plain(Call::Raise(call)) })
}

fn clear(time: Time, fields: &mut Fields) -> Result<Parsed, Fault> {
    let alarm_type = fields.string("type", longest::TYPE)?;
    let key = KeyFields::read(fields)?;
    let call = Clear {
        tenant: key.tenant.as_deref(),
        slice: key.slice.as_deref(),
        region: key.region.as_deref(),
        ..Clear::new(time, &alarm_type, &key.cause, key.object.borrow()?)
    };
    Ok(Parsed { cause: Some(key.cause_column), ..plain(Call::Clear(call)) })
}

/// What a raise and a clear have in common.
struct KeyFields {
    cause: String,
    cause_column: usize,
    object: ObjectParts,
    tenant: Option<String>,
    slice: Option<String>,
    region: Option<String>,
    region_column: Option<usize>,
}

impl KeyFields {
    fn read(fields: &mut Fields) -> Result<KeyFields, Fault> {
        let cause = fields.need("cause")?;
        let cause_column = cause.column;
        let cause = cause.string("cause", longest::CAUSE)?;
        let object = ObjectParts::read(fields.need("object")?)?;
        let (tenant, slice) = (fields.option("tenant", longest::TENANT)?, fields.option("slice", longest::SLICE)?);
        let region = fields.maybe("region");
        let region_column = region.as_ref().map(|value| value.column);
        let region = region.map(|value| value.string("region", longest::REGION)).transpose()?;
        Ok(KeyFields { cause, cause_column, object, tenant, slice, region, region_column })
    }
}

/// An affected object with strings of its own.
struct ObjectParts {
    column: usize,
    kind: u8,
    strings: Vec<String>,
    queue: Option<u16>,
}

const OBJECTS: &str =
    "an object is nf(kind,instance), interface(nf,name), peer(nf,peer), session-store(nf) or session-store(nf,shard), \
                       slice(s), tenant(t), certificate(key) or queue(nf,interface,7)";

impl ObjectParts {
    fn read(value: Value) -> Result<ObjectParts, Fault> {
        let fault = || Fault::new(value.column, OBJECTS);
        let name = std::str::from_utf8(&value.bytes).ok();
        let kind = (1..=8).find(|kind| Object::kind_name(*kind) == name).ok_or_else(fault)?;
        let mut parts = value.parts.clone().ok_or_else(fault)?;
        let queue = if kind == 8 {
            let last = parts.pop().ok_or_else(fault)?;
            let number = std::str::from_utf8(&last.bytes).ok().and_then(|digits| digits.parse().ok());
            Some(number.ok_or_else(|| Fault::new(last.column, "a queue is a number from 0 to 65535"))?)
        } else {
            None
        };
        let strings =
            parts.into_iter().map(|part| part.string("an object's string", longest::OBJECT)).collect::<Result<_, _>>()?;
        Ok(ObjectParts { column: value.column, kind, strings, queue })
    }

    fn borrow(&self) -> Result<Object<'_>, Fault> {
        let mut strings = self.strings.iter().map(String::as_str);
        let object = strings.next().and_then(|first| Object::of_parts(self.kind, first, strings.next(), self.queue));
        object.filter(|_| strings.next().is_none()).ok_or_else(|| Fault::new(self.column, OBJECTS))
    }
}

/// The severity of a name, or which names there are.
pub fn severity_named(name: &[u8]) -> Result<Severity, &'static str> {
    let known = "a severity is cleared, indeterminate, warning, minor, major or critical";
    std::str::from_utf8(name).ok().and_then(Severity::from_name).ok_or(known)
}

fn severity(value: Value) -> Result<Severity, Fault> {
    severity_named(&value.bytes).map_err(|known| Fault::new(value.column, known))
}

fn plain_action(action: Action, time: Time, fields: &mut Fields) -> Result<Parsed, Fault> {
    let id = fields.string("id", longest::ID)?;
    let authorised = fields.flag("authorised")?;
    Ok(plain(Call::Plain(PlainAction { action, time, id: &id, authorised })))
}
