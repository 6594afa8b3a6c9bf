//! Operations as calls, with what each is answered by.
use crate::answer::{ActionAnswer, ClearAnswer, Head, RaiseAnswer};
use crate::bytes::{CallBytes, Fields};
use crate::call::{Clear, PlainAction, Raise};
use crate::layout::longest;
use crate::policy::{PolicyAction, SuppressUntil};
use crate::refusal::Refusal;
use crate::register::check_call;
use crate::report::{Alarms, AuditEvents, Counts, Summary};
use crate::time::Time;
use crate::values::{Action, Severity};

/// 7: puts every active alarm that last changed before the cutoff into history as expired. Answered by how many.
#[derive(Clone, Copy, Debug, PartialEq, Eq)]
pub struct Expire {
    /// The cutoff.
    pub before: Time,
}

/// 8: lists the active alarms, oldest first.
#[derive(Clone, Copy, Debug, PartialEq, Eq)]
pub struct ListActive {
    /// Those of one severity, or all.
    pub severity: Option<Severity>,
}

/// 9: lists the history, oldest first.
#[derive(Clone, Copy, Debug, PartialEq, Eq, Default)]
pub struct ListHistory<'a> {
    /// Entries of one tenant, or all.
    pub tenant: Option<&'a str>,
    /// Entries of one slice, or all.
    pub slice: Option<&'a str>,
}

/// 10: counts the active alarms by severity and cause.
#[derive(Clone, Copy, Debug, PartialEq, Eq)]
pub struct CountActive;

/// 11: sums up: how many are active, the worst of those that are not suppressed, and the audit counters.
#[derive(Clone, Copy, Debug, PartialEq, Eq)]
pub struct Summarise;

/// 12: takes the oldest audit events out of the register.
#[derive(Clone, Copy, Debug, PartialEq, Eq)]
pub struct TakeAudit {
    /// No more than that many.
    pub at_most: u16,
}

/// 14: lifts every suppression whose end has come, be it at the cutoff or before it. The alarm is then in state updated, as of the
/// cutoff or, if that is later, of its raising; suppressions without an end stay. Answered by how many were lifted.
#[derive(Clone, Copy, Debug, PartialEq, Eq)]
pub struct Lift {
    /// The cutoff.
    pub up_to: Time,
}

mod sealed {
    pub trait Sealed {}
}

/// An operation that a register performs.
pub trait Operation: sealed::Sealed {
    /// What it is answered by.
    type Answer<'a>;

    /// Its call.
    fn call(&self) -> CallBytes;

    /// Whether a register would take it, as far as its own fields decide, so that a person can be told before it is sent.
    ///
    /// # Errors
    /// 26, 28, 29 or 33: the library's own number, which is that of the first field with a fault. Where no field has one, 34 for a
    /// [`SuppressUntil`] whose end is not later than its time.
    ///
    /// ```
    /// use alarm_register::{Object, Operation, Raise, Refusal, Severity, Time};
    ///
    /// let mast = Object::Interface { nf: "tower-11", name: "anemometer" };
    /// let frozen = Raise::new(Time(0), "A-9", "wind.sensor", Severity::Minor, "other:ropeway.wind-sensor", mast);
    /// // the limit of 120 is one of characters, and not of bytes: é has two
    /// assert_eq!(frozen.text(&"é".repeat(120)).check(), Ok(()));
    /// assert_eq!(frozen.text(&"é".repeat(121)).check(), Err(Refusal::CodePoints));
    /// // there are at most 256 bytes as well: 64 characters of four
    /// assert_eq!(frozen.text(&"🚡".repeat(64)).check(), Ok(()));
    /// assert_eq!(frozen.text(&"🚡".repeat(65)).check(), Err(Refusal::TooLong));
    /// ```
    fn check(&self) -> Result<(), Refusal> {
        check_call(self.call().as_bytes())
    }

    /// Its answer from the bytes that a register gave; `None` where they are not such an answer.
    fn read_answer(answer: &[u8]) -> Option<Self::Answer<'_>>;
}

/// Makes a type an operation: how its call is written, and what its answer is.
macro_rules! operation {
    ($($name:ty, $answer:ty, $self:ident => $write:expr, $bytes:ident => $read:expr;)*) => {
        $(impl sealed::Sealed for $name {}

        impl Operation for $name {
            type Answer<'a> = $answer;

            fn call(&$self) -> CallBytes {
                $write
            }

            fn read_answer($bytes: &[u8]) -> Option<Self::Answer<'_>> {
                $read
            }
        })*
    };
}

operation! {
    Raise<'_>, RaiseAnswer<'a>, self => self.write(), answer => RaiseAnswer::read(answer);
    Clear<'_>, ClearAnswer<'a>, self => self.write(), answer => ClearAnswer::read(answer);
    PlainAction<'_>, ActionAnswer<'a>, self => self.write(), answer => ActionAnswer::read(answer);
    PolicyAction<'_>, ActionAnswer<'a>, self => self.write(), answer => ActionAnswer::read(answer);
    Expire, u64, self => with(7, |call| call.time(self.before)), answer => Some(Head::report(answer)?.0.number);
    ListActive, Alarms<'a>, self => with(8, |call| call.byte(self.severity.map_or(255, Severity::byte))), answer => Alarms::read(answer);
    ListHistory<'_>, Alarms<'a>, self => with(9, |call| scoped(call, self)), answer => Alarms::read(answer);
    CountActive, Counts<'a>, self => CallBytes::new(10), answer => Counts::read(answer);
    Summarise, Summary, self => CallBytes::new(11), answer => Summary::read(answer);
    TakeAudit, AuditEvents<'a>, self => with(12, |call| call.raw(&self.at_most.to_be_bytes())), answer => AuditEvents::read(answer);
    SuppressUntil<'_>, ActionAnswer<'a>, self => self.write(), answer => ActionAnswer::read(answer);
    Lift, u64, self => with(14, |call| call.time(self.up_to)), answer => Some(Head::report(answer)?.0.number);
}

fn with(operation: u8, fields: impl FnOnce(&mut CallBytes)) -> CallBytes {
    let mut call = CallBytes::new(operation);
    fields(&mut call);
    call
}

fn scoped(call: &mut CallBytes, list: &ListHistory<'_>) {
    call.option(list.tenant.map(str::as_bytes), longest::TENANT);
    call.option(list.slice.map(str::as_bytes), longest::SLICE);
}

/// Any of the fourteen operations, as read from the bytes of a call.
///
/// ```
/// use alarm_register::{Call, Operation, Summarise};
/// let call = Summarise.call();
/// assert!(matches!(Call::read(call.as_bytes()), Some(Call::Summarise(_))));
/// assert_eq!(Call::read(b"junk"), None);
/// ```
#[derive(Clone, Copy, Debug, PartialEq, Eq)]
pub enum Call<'a> {
    /// 1: raises or updates.
    Raise(Raise<'a>),
    /// 2: clears.
    Clear(Clear<'a>),
    /// 3 or 4: acknowledges or suppresses.
    Plain(PlainAction<'a>),
    /// 5 or 6: acknowledges or suppresses with policy.
    Policy(PolicyAction<'a>),
    /// 7: expires.
    Expire(Expire),
    /// 8: lists the active alarms.
    ListActive(ListActive),
    /// 9: lists the history.
    ListHistory(ListHistory<'a>),
    /// 10: counts the active alarms.
    CountActive(CountActive),
    /// 11: sums up.
    Summarise(Summarise),
    /// 12: takes audit events.
    TakeAudit(TakeAudit),
    /// 13: suppresses with policy until an end.
    SuppressUntil(SuppressUntil<'a>),
    /// 14: lifts suppressions whose end has come.
    Lift(Lift),
}

impl<'a> Call<'a> {
    /// The operation that a call's bytes ask for; `None` where a field is missing or too long, or bytes are left over.
    ///
    /// Whether a register would take the call is [`check_call`]'s to say: this judges no cause, counts no code points and
    /// compares no times.
    pub fn read(call: &'a [u8]) -> Option<Call<'a>> {
        let mut fields = Fields(call);
        let read = match fields.byte()? {
            1 => Call::Raise(Raise::read(&mut fields)?),
            2 => Call::Clear(Clear::read(&mut fields)?),
            3 => Call::Plain(PlainAction::read(Action::Acknowledge, &mut fields)?),
            4 => Call::Plain(PlainAction::read(Action::Suppress, &mut fields)?),
            5 => Call::Policy(PolicyAction::read(Action::Acknowledge, &mut fields)?),
            6 => Call::Policy(PolicyAction::read(Action::Suppress, &mut fields)?),
            7 => Call::Expire(Expire { before: fields.time()? }),
            8 => Call::ListActive(ListActive { severity: one_or_all(fields.byte()?)? }),
            9 => {
                Call::ListHistory(ListHistory { tenant: fields.option(longest::TENANT)?, slice: fields.option(longest::SLICE)? })
            }
            10 => Call::CountActive(CountActive),
            11 => Call::Summarise(Summarise),
            12 => Call::TakeAudit(TakeAudit { at_most: fields.u16()? }),
            13 => Call::SuppressUntil(SuppressUntil::read(&mut fields)?),
            14 => Call::Lift(Lift { up_to: fields.time()? }),
            _ => return None,
        };
        fields.0.is_empty().then_some(read)
    }

    /// The bytes of the call.
    pub fn bytes(&self) -> CallBytes {
        match self {
            Call::Raise(operation) => operation.call(),
            Call::Clear(operation) => operation.call(),
            Call::Plain(operation) => operation.call(),
            Call::Policy(operation) => operation.call(),
            Call::Expire(operation) => operation.call(),
            Call::ListActive(operation) => operation.call(),
            Call::ListHistory(operation) => operation.call(),
            Call::CountActive(operation) => operation.call(),
            Call::Summarise(operation) => operation.call(),
            Call::TakeAudit(operation) => operation.call(),
            Call::SuppressUntil(operation) => operation.call(),
            Call::Lift(operation) => operation.call(),
        }
    }
}

fn one_or_all(byte: u8) -> Option<Option<Severity>> {
    if byte == 255 {
        Some(None)
    } else {
        Severity::from_byte(byte).map(Some)
    }
}
