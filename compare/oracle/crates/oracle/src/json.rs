//! One JSON line for each call: answers, alarms and events with all their fields.
use crate::call::severity;
use crate::machine::{Answer, Machine};
use opc_alarm::manager::admin::{AlarmAction, AlarmActionScope};
use opc_alarm::manager::audit::{AlarmAuditEvent, AlarmAuditOutcome};
use opc_alarm::manager::state::AlarmOpResult as R;
use opc_alarm::model::{AffectedObject, Alarm, AlarmState, ReadinessImpact, Severity};
use opc_redaction::metrics::METRICS;
use std::fmt::Write;
use std::sync::atomic::Ordering::Relaxed;

fn text(s: &str) -> String {
    let mut o = String::from("\"");
    for c in s.chars() {
        match c {
            '"' | '\\' => o.extend(['\\', c]),
            '\0'..='\x1f' | '\x7f'..='\u{9f}' | '\u{2028}' | '\u{2029}' => {
                write!(o, "\\u{:04x}", c as u32).unwrap()
            }
            _ => o.push(c),
        }
    }
    o.push('"');
    o
}

fn opt(s: Option<&str>) -> String {
    s.map_or("null".into(), text)
}

fn list(items: impl Iterator<Item = String>) -> String {
    format!("[{}]", items.collect::<Vec<_>>().join(","))
}

fn sev(s: Severity) -> u8 {
    (0..6).find(|&b| severity(b) == Some(s)).unwrap()
}

fn object(o: &AffectedObject) -> String {
    use AffectedObject as O;
    match o {
        O::NfInstance { kind, instance } => format!("[1,{},{}]", text(kind), text(instance)),
        O::Interface { nf, name } => format!("[2,{},{}]", text(nf), text(name)),
        O::Peer { nf, peer_id } => format!("[3,{},{}]", text(nf), text(peer_id)),
        O::SessionStore { nf, shard } => format!("[4,{},{}]", text(nf), opt(shard.as_deref())),
        O::Slice { snssai } => format!("[5,{}]", text(snssai)),
        O::Tenant { tenant } => format!("[6,{}]", text(tenant)),
        O::Certificate { key_id } => format!("[7,{}]", text(key_id)),
        O::DataPlaneQueue { nf, interface, queue } => {
            format!("[8,{},{},{queue}]", text(nf), text(interface))
        }
    }
}

fn alarm_state(s: AlarmState) -> u8 {
    match s {
        AlarmState::Raised => 0,
        AlarmState::Updated => 1,
        AlarmState::Acknowledged => 2,
        AlarmState::Suppressed => 3,
        AlarmState::Cleared => 4,
        AlarmState::Expired => 5,
    }
}

fn alarm(a: &Alarm) -> String {
    let readiness = match a.readiness_impact() {
        ReadinessImpact::NoImpact => 0,
        ReadinessImpact::DegradedOnly => 1,
        ReadinessImpact::ForceNotReady => 2,
    };
    let details = match a.details.as_value() {
        None => "null".into(),
        Some(serde_json::Value::String(hex)) => text(hex),
        Some(_) => unreachable!("details are the hex of the call's bytes"),
    };
    format!(
        "{{\"key\":\"{}\",\"id\":{},\"type\":{},\"severity\":{},\"cause\":{},\"object\":{},\
         \"tenant\":{},\"slice\":{},\"region\":{},\"text\":{},\"details\":{},\"state\":{},\
         \"raised_at\":{},\"updated_at\":{},\"cleared_at\":{},\"correlation_id\":{},\"readiness\":{}}}",
        a.dedup_key(),
        text(a.alarm_id.as_str()),
        text(a.alarm_type.as_str()),
        sev(a.severity),
        text(&a.probable_cause.to_string()),
        object(&a.affected_object),
        opt(a.tenant.as_deref()),
        opt(a.slice.as_deref()),
        opt(a.region.as_ref().map(|r| r.as_str())),
        text(a.text.as_str()),
        details,
        alarm_state(a.state),
        time::shim::ns(a.raised_at),
        time::shim::ns(a.updated_at),
        a.cleared_at.map_or("null".into(), |t| time::shim::ns(t).to_string()),
        a.correlation_id.as_ref().map_or("null".into(), |u| text(&u.to_string())),
        readiness,
    )
}

fn event(e: &AlarmAuditEvent) -> String {
    let scope = match &e.scope {
        AlarmActionScope::Alarm { alarm_id } => format!("[0,{}]", text(alarm_id.as_str())),
        AlarmActionScope::Tenant { tenant } => format!("[1,{}]", text(tenant)),
        AlarmActionScope::Global => "[2]".into(),
    };
    format!(
        "{{\"action\":{},\"outcome\":{},\"id\":{},\"type\":{},\"cause\":{},\"principal\":{},\
         \"tenant\":{},\"reason\":{},\"scope\":{},\"correlation\":{},\"occurred_at\":{}}}",
        match e.action {
            AlarmAction::Acknowledge => 0,
            AlarmAction::Suppress => 1,
        },
        match e.outcome {
            AlarmAuditOutcome::Authorized => 0,
            AlarmAuditOutcome::Denied => 1,
        },
        text(e.alarm_id.as_str()),
        text(e.alarm_type.as_str()),
        text(&e.probable_cause.to_string()),
        text(&e.principal),
        opt(e.tenant.as_deref()),
        text(&e.reason),
        scope,
        opt(e.correlation_id.as_deref()),
        time::shim::ns(e.occurred_at),
    )
}

/// An answer: the code, count and number of document 01's head, and what its body holds. Lists stand in the Rust's order.
pub fn answer(a: Answer) -> String {
    let (code, count, number, body) = match a {
        Answer::Op(r) => outcome(r),
        Answer::Expired(n) => (11, 0, n, String::new()),
        Answer::Alarms(v) => (11, v.len(), 0, format!("\"alarms\":{}", list(v.iter().map(alarm)))),
        Answer::Counts(v) => {
            let rank = |name: &str| (0..6).find(|&b| severity(b).unwrap().to_string() == name).expect("a severity's name");
            let items = v.iter().map(|(s, c, n)| format!("[{},{n},{}]", rank(s), text(c)));
            (11, v.len(), 0, format!("\"counts\":{}", list(items)))
        }
        Answer::Summary(n) => (11, 0, n, String::new()),
        Answer::Taken(v) => (11, v.len(), 0, format!("\"events\":{}", list(v.iter().map(event)))),
    };
    let comma = if body.is_empty() { "" } else { "," };
    format!("\"code\":{code},\"count\":{count},\"number\":{number}{comma}{body}")
}

fn outcome(r: R) -> (u8, usize, usize, String) {
    match r {
        R::Raised { alarm: a } => (1, 1, 0, format!("\"alarm\":{}", alarm(&a))),
        R::Updated { alarm: a } => (2, 1, 0, format!("\"alarm\":{}", alarm(&a))),
        R::Cleared { alarm_id } => (3, 0, 0, format!("\"id\":{}", text(alarm_id.as_str()))),
        R::ClearWithoutActive { dedup_key, cause } => {
            (4, 0, 0, format!("\"key\":\"{dedup_key}\",\"cause\":{}", text(&cause.to_string())))
        }
        R::ActiveLimitExceeded { max_active_alarms, dedup_key } => {
            (5, 0, max_active_alarms, format!("\"key\":\"{dedup_key}\""))
        }
        R::Suppressed { alarm: a } => (6, 1, 0, format!("\"alarm\":{}", alarm(&a))),
        R::Acknowledged { alarm: a } => (7, 1, 0, format!("\"alarm\":{}", alarm(&a))),
        R::Unauthorized { message } => (8, 0, 0, format!("\"message\":{}", text(&message))),
        R::AuditFailed { message } => (9, 0, 0, format!("\"message\":{}", text(&message))),
        R::NotFound { alarm_id } => (10, 0, 0, format!("\"id\":{}", text(alarm_id.as_str()))),
    }
}

/// All that the Rust holds after a call.
pub fn state(m: &Machine) -> String {
    format!(
        "\"state\":{{\"active\":{},\"history\":{},\"audit\":{},\"successes\":{},\"failures\":{}}}",
        list(m.manager.active_alarms().iter().map(alarm)),
        list(m.manager.all_alarms().iter().map(alarm)),
        list(m.sink.events.iter().map(event)),
        METRICS.alarm_audit_success.load(Relaxed),
        METRICS.alarm_audit_failure.load(Relaxed),
    )
}
