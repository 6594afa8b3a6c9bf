//! Calls, written as lines.
use super::policy::SUPPRESS_UNTIL;
use super::Zone;
use alarm_register::{check_call, Action, Call, Clear, ListHistory, Object, PlainAction, PolicyAction, Raise, Scope};
use std::fmt::Write;

/// The line of a call: its fields by name, with the time of a zone, or its bytes where no register would take it.
pub fn line(bytes: &[u8], zone: Zone) -> String {
    match (check_call(bytes), Call::read(bytes)) {
        (Ok(()), Some(call)) => of_call(&call, zone),
        (Err(refusal), _) => format!("{} # refused: {refusal}", raw(bytes)),
        (Ok(()), None) => raw(bytes),
    }
}

fn raw(bytes: &[u8]) -> String {
    bytes.iter().fold("raw ".to_string(), |line, byte| line + &format!("{byte:02x}")).trim_end().to_string()
}

fn of_call(call: &Call<'_>, zone: Zone) -> String {
    match call {
        Call::Raise(call) => raise(call, zone),
        Call::Clear(call) => clear(call, zone),
        Call::Plain(PlainAction { action, time, id, authorised }) => {
            format!("{} {action} id={} authorised={}", zone.show(*time), word(id), yes(*authorised))
        }
        Call::Policy(call) => {
            let operation = match call.action {
                Action::Acknowledge => "acknowledge-with-policy",
                Action::Suppress => "suppress-with-policy",
            };
            format!("{} {operation}{}", zone.show(call.time), policy(call))
        }
        Call::Expire(call) => format!("expire before {}", zone.show(call.before)),
        Call::ListActive(call) => call.severity.map_or("active".to_string(), |severity| format!("active severity={severity}")),
        Call::ListHistory(ListHistory { tenant, slice }) => {
            format!("history{}", options(&[("tenant", *tenant), ("slice", *slice)]))
        }
        Call::CountActive(_) => "counts".to_string(),
        Call::Summarise(_) => "summary".to_string(),
        Call::TakeAudit(call) => format!("take-audit at-most={}", call.at_most),
        Call::SuppressUntil(call) => {
            let end = zone.show(call.end);
            format!("{} {SUPPRESS_UNTIL} {end}{}", zone.show(call.time), policy(&call.without_end()))
        }
        Call::Lift(call) => format!("lift up-to {}", zone.show(call.up_to)),
    }
}

fn raise(call: &Raise<'_>, zone: Zone) -> String {
    let mut line = format!("{} raise id={} type={}", zone.show(call.time), word(call.id), word(call.alarm_type));
    let _ = write!(line, " severity={} cause={} object={}", call.severity, word(call.cause), object(&call.object));
    line += &options(&[("tenant", call.tenant), ("slice", call.slice), ("region", call.region)]);
    line += &unless_empty("text", call.text);
    if let Some(details) = call.details {
        let _ = write!(line, " details={}", quoted(details));
    }
    line
}

fn clear(call: &Clear<'_>, zone: Zone) -> String {
    let mut line = format!("{} clear type={} cause={}", zone.show(call.time), word(call.alarm_type), word(call.cause));
    let _ = write!(line, " object={}", object(&call.object));
    line + &options(&[("tenant", call.tenant), ("slice", call.slice), ("region", call.region)])
}

/// The fields of a call with policy, behind its operation.
fn policy(call: &PolicyAction<'_>) -> String {
    let mut line = format!(" id={} principal={}", word(call.id), word(call.principal));
    line += &options(&[("tenant", call.tenant)]);
    line += &unless_empty("reason", call.reason);
    let _ = match call.scope {
        Scope::Alarm(id) => write!(line, " scope=alarm({})", word(id)),
        Scope::Tenant(tenant) => write!(line, " scope=tenant({})", word(tenant)),
        Scope::Global => write!(line, " scope=global"),
    };
    line += &options(&[("correlation", call.correlation)]);
    let _ = write!(line, " critical-allowed={} authorised={}", yes(call.critical_allowed), yes(call.authorised));
    line + &unless_empty("denial", call.denial)
}

fn yes(flag: bool) -> &'static str {
    if flag {
        "yes"
    } else {
        "no"
    }
}

fn options(fields: &[(&str, Option<&str>)]) -> String {
    let given = fields.iter().filter_map(|(name, value)| value.map(|value| format!(" {name}={}", word(value))));
    given.collect()
}

fn unless_empty(name: &str, value: &str) -> String {
    if value.is_empty() {
        String::new()
    } else {
        format!(" {name}={}", word(value))
    }
}

fn object(object: &Object<'_>) -> String {
    let (first, second, queue) = object.parts();
    let mut parts = vec![word(first)];
    parts.extend(second.map(word));
    parts.extend(queue.map(|queue| queue.to_string()));
    format!("{}({})", Object::kind_name(object.kind()).unwrap_or_default(), parts.join(","))
}

/// A string as it stands, where it needs no quotes.
fn word(string: &str) -> String {
    let bare = |c: char| c.is_ascii_alphanumeric() || "._:-/@+%".contains(c);
    if !string.is_empty() && string.chars().all(bare) {
        string.to_string()
    } else {
        quoted(string.as_bytes())
    }
}

fn quoted(bytes: &[u8]) -> String {
    let mut line = "\"".to_string();
    for chunk in bytes.utf8_chunks() {
        for c in chunk.valid().chars() {
            match c {
                '"' | '\\' => line.extend(['\\', c]),
                c => line += &visible(c),
            }
        }
        line.extend(chunk.invalid().iter().map(|byte| format!("\\x{byte:02x}")));
    }
    line + "\""
}

/// A character, or what is written for one that cannot be seen or that moves what stands beside it.
pub fn visible(c: char) -> String {
    match c {
        '\n' => "\\n".to_string(),
        '\r' => "\\r".to_string(),
        '\t' => "\\t".to_string(),
        '\u{200b}'..='\u{200f}' | '\u{2028}'..='\u{202e}' | '\u{2060}'..='\u{2069}' | '\u{feff}' => unseen(c),
        c if c.is_control() => unseen(c),
        c => c.to_string(),
    }
}

fn unseen(c: char) -> String {
    format!("\\u{{{:x}}}", u32::from(c))
}

/// A text as a page shows it: on one line, and nothing in it steers a terminal.
pub fn quoted_for_page(text: &str) -> String {
    text.chars().map(visible).collect()
}
