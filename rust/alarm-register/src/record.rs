//! Alarms and audit events, read from their records.
use crate::bytes::Fields;
use crate::layout::{alarm, event, StringSlot, RECORD_WIDTH};
use crate::object::{Object, Scope};
use crate::time::Time;
use crate::values::{Action, Outcome, Severity, State};
use core::fmt;

/// The key of an alarm: what is raised under one key is one alarm. Shown as 32 hexadecimal digits.
#[derive(Clone, Copy, Debug, PartialEq, Eq, Hash, PartialOrd, Ord)]
pub struct Key(pub [u8; 16]);

impl Key {
    /// The key of 32 lower-case hexadecimal digits.
    pub fn from_digits(digits: &[u8]) -> Option<Key> {
        let mut key = [0; 16];
        if digits.len() != 32 {
            return None;
        }
        for (byte, pair) in key.iter_mut().zip(digits.chunks(2)) {
            *byte = digit(pair[0])? << 4 | digit(pair[1])?;
        }
        Some(Key(key))
    }
}

fn digit(byte: u8) -> Option<u8> {
    match byte {
        b'0'..=b'9' => Some(byte - b'0'),
        b'a'..=b'f' => Some(byte - b'a' + 10),
        _ => None,
    }
}

impl fmt::Display for Key {
    fn fmt(&self, f: &mut fmt::Formatter<'_>) -> fmt::Result {
        self.0.iter().try_for_each(|byte| write!(f, "{byte:02x}"))
    }
}

/// An alarm as a record holds it.
///
/// What is raised while it is active is folded into it, and counted in `raises`: a switch that chatters is told from one that
/// closed a single time.
///
/// ```
/// use alarm_register::{Limits, Object, Raise, RaiseAnswer, Register, Severity, Time, ANSWER_ROOM};
///
/// let limits = Limits { active: 4, history: 8, audit: 2 };
/// let mut bytes = vec![0; limits.register_length()];
/// let mut answer = [0; ANSWER_ROOM];
/// let mut register = Register::open(&mut bytes, limits)?;
///
/// let switch = Object::Interface { nf: "tower-3", name: "rope-switch" };
/// let off = Raise::new(Time(0), "A-1", "line.rope", Severity::Major, "other:ropeway.rope-position", switch);
/// register.perform(&off, &mut answer)?;
/// let RaiseAnswer::Updated(alarm) = register.perform(&off, &mut answer)? else { panic!("it is active") };
/// assert_eq!(alarm.raises, 2);
/// # Ok::<(), alarm_register::Refusal>(())
/// ```
#[derive(Clone, Copy, Debug, PartialEq, Eq)]
pub struct Alarm<'a> {
    /// The key.
    pub key: Key,
    /// How bad; cleared in an alarm that was cleared, kept in one that expired.
    pub severity: Severity,
    /// Where it stands.
    pub state: State,
    /// When it was raised.
    pub raised_at: Time,
    /// When it last changed.
    pub updated_at: Time,
    /// When it ended, in history.
    pub cleared_at: Option<Time>,
    /// The id.
    pub id: &'a str,
    /// The type.
    pub alarm_type: &'a str,
    /// The cause.
    pub cause: &'a str,
    /// What is affected.
    pub object: Object<'a>,
    /// The tenant, if any.
    pub tenant: Option<&'a str>,
    /// The slice, if any.
    pub slice: Option<&'a str>,
    /// The region, if any.
    pub region: Option<&'a str>,
    /// The text for people.
    pub text: &'a str,
    /// The details, any bytes.
    pub details: Option<&'a [u8]>,
    /// How often it was raised: 1 when it was raised, and one more at each answer Updated since, held at [`u32::MAX`]. What else
    /// happens to it leaves the count; an alarm that has ended and is raised anew has 1 again. An entry of history has the count as
    /// of its change: those of one alarm are not to be added up. 0 in a record from before raises were counted: they are counted
    /// from its next raise on.
    pub raises: u32,
    /// When its suppression ends, if it was suppressed until a time ([`SuppressUntil`](crate::SuppressUntil)); in state suppressed
    /// alone. The alarm stays suppressed behind its end until a [`Lift`](crate::Lift) comes. An entry of history has the end as of
    /// its change.
    pub end: Option<Time>,
}

/// An attempt to acknowledge or suppress with policy, as a record holds it.
#[derive(Clone, Copy, Debug, PartialEq, Eq)]
pub struct AuditEvent<'a> {
    /// What was attempted.
    pub action: Action,
    /// How it ended.
    pub outcome: Outcome,
    /// When.
    pub occurred_at: Time,
    /// The alarm's id.
    pub id: &'a str,
    /// The alarm's type.
    pub alarm_type: &'a str,
    /// The alarm's cause.
    pub cause: &'a str,
    /// Who attempted it.
    pub principal: &'a str,
    /// For which tenant, if any.
    pub tenant: Option<&'a str>,
    /// Why.
    pub reason: &'a str,
    /// How far the permission reached.
    pub scope: Scope<'a>,
    /// What it belonged to, if anything.
    pub correlation: Option<&'a str>,
}

/// A record's bytes.
struct Record<'a>(&'a [u8]);

impl<'a> Record<'a> {
    fn from(&self, at: usize) -> Fields<'a> {
        Fields(self.0.get(at..).unwrap_or(&[]))
    }

    fn bytes(&self, slot: StringSlot) -> Option<&'a [u8]> {
        let mut fields = self.from(slot.at);
        let length = usize::from(fields.u16()?);
        if length > slot.longest {
            return None;
        }
        fields.take(length)
    }

    fn string(&self, slot: StringSlot) -> Option<&'a str> {
        core::str::from_utf8(self.bytes(slot)?).ok()
    }

    /// Whether the option that stands before a slot is present.
    fn present(&self, slot: StringSlot) -> Option<bool> {
        self.from(slot.at - 1).flag()
    }

    fn option(&self, slot: StringSlot) -> Option<Option<&'a str>> {
        if self.present(slot)? {
            self.string(slot).map(Some)
        } else {
            Some(None)
        }
    }

    fn object(&self) -> Option<Object<'a>> {
        let kind = self.from(alarm::OBJECT_KIND).byte()?;
        let [first, second] = alarm::OBJECT;
        let second = match kind {
            4 => self.option(second)?,
            1..=3 | 8 => Some(self.string(second)?),
            _ => None,
        };
        let queue = if kind == 8 { Some(self.from(alarm::QUEUE).u16()?) } else { None };
        Object::of_parts(kind, self.string(first)?, second, queue)
    }

    fn scope(&self) -> Option<Scope<'a>> {
        match self.from(event::SCOPE_KIND).byte()? {
            0 => self.string(event::SCOPE).map(Scope::Alarm),
            1 => self.string(event::SCOPE).map(Scope::Tenant),
            2 => Some(Scope::Global),
            _ => None,
        }
    }

    /// The time behind an option's byte.
    fn time_option(&self, at: usize) -> Option<Option<Time>> {
        let mut fields = self.from(at);
        if fields.flag()? {
            fields.time().map(Some)
        } else {
            Some(None)
        }
    }
}

impl<'a> Alarm<'a> {
    /// The alarm of a record of 1,536 bytes; `None` where a field is not legal, as is an end in any state but suppressed.
    pub fn read(record: &'a [u8]) -> Option<Alarm<'a>> {
        let record = Record(record.get(..RECORD_WIDTH)?);
        let alarm = Alarm {
            key: Key(record.from(alarm::KEY).array()?),
            severity: Severity::from_byte(record.from(alarm::SEVERITY).byte()?)?,
            state: State::from_byte(record.from(alarm::STATE).byte()?)?,
            raised_at: record.from(alarm::RAISED_AT).time()?,
            updated_at: record.from(alarm::UPDATED_AT).time()?,
            cleared_at: record.time_option(alarm::CLEARED_AT)?,
            id: record.string(alarm::ID)?,
            alarm_type: record.string(alarm::TYPE)?,
            cause: record.string(alarm::CAUSE)?,
            object: record.object()?,
            tenant: record.option(alarm::TENANT)?,
            slice: record.option(alarm::SLICE)?,
            region: record.option(alarm::REGION)?,
            text: record.string(alarm::TEXT)?,
            details: if record.present(alarm::DETAILS)? { Some(record.bytes(alarm::DETAILS)?) } else { None },
            raises: record.from(alarm::RAISES).u32()?,
            end: record.time_option(alarm::END)?,
        };
        (alarm.end.is_none() || alarm.state == State::Suppressed).then_some(alarm)
    }
}

impl<'a> AuditEvent<'a> {
    /// The event of a record of 1,536 bytes; `None` where a field is not legal.
    pub fn read(record: &'a [u8]) -> Option<AuditEvent<'a>> {
        let record = Record(record.get(..RECORD_WIDTH)?);
        Some(AuditEvent {
            action: Action::from_byte(record.from(event::ACTION).byte()?)?,
            outcome: Outcome::from_byte(record.from(event::OUTCOME).byte()?)?,
            occurred_at: record.from(event::OCCURRED_AT).time()?,
            id: record.string(event::ID)?,
            alarm_type: record.string(event::TYPE)?,
            cause: record.string(event::CAUSE)?,
            principal: record.string(event::PRINCIPAL)?,
            tenant: record.option(event::TENANT)?,
            reason: record.string(event::REASON)?,
            scope: record.scope()?,
            correlation: record.option(event::CORRELATION)?,
        })
    }
}

impl fmt::Display for Alarm<'_> {
    /// One line: `critical raised A1 drive.trip other:ropeway.drive-trip interface(drive,main) since 2026-03-14 09:12:04: text`;
    /// where it was raised more than once, `.. since 2026-03-14 09:12:04, raised 3 times: text`; where its suppression has an end,
    /// `minor suppressed until 2026-03-14 16:00:00 A2 ..`.
    fn fmt(&self, f: &mut fmt::Formatter<'_>) -> fmt::Result {
        write!(f, "{} {}", self.severity, self.state)?;
        if let Some(end) = self.end {
            write!(f, " until {end}")?;
        }
        write!(f, " {} {} {} {}", self.id, self.alarm_type, self.cause, self.object)?;
        write!(f, " since {}", self.raised_at)?;
        if self.raises > 1 {
            write!(f, ", raised {} times", self.raises)?;
        }
        if self.text.is_empty() {
            Ok(())
        } else {
            write!(f, ": {}", self.text)
        }
    }
}

impl fmt::Display for AuditEvent<'_> {
    /// One line: `2026-03-14 09:20:00 suppress A2 by shift leader: authorised: rope inspection`.
    fn fmt(&self, f: &mut fmt::Formatter<'_>) -> fmt::Result {
        write!(f, "{} {} {} by {}: {}", self.occurred_at, self.action, self.id, self.principal, self.outcome)?;
        if self.reason.is_empty() {
            Ok(())
        } else {
            write!(f, ": {}", self.reason)
        }
    }
}
