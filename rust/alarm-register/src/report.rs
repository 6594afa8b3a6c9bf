//! Reports: lists, counts and the summary.
use crate::answer::Head;
use crate::bytes::Fields;
use crate::layout::RECORD_WIDTH;
use crate::record::{Alarm, AuditEvent};
use crate::values::{Readiness, Severity};
use core::fmt;
use core::marker::PhantomData;

/// A list of records, read one after the other: an iterator of `Alarm` or `AuditEvent`.
#[derive(Clone, Debug)]
pub struct Records<'a, T> {
    bytes: &'a [u8],
    read: fn(&'a [u8]) -> Option<T>,
    items: PhantomData<T>,
}

/// The alarms of a list, oldest first.
pub type Alarms<'a> = Records<'a, Alarm<'a>>;

/// The audit events of a list, oldest first.
pub type AuditEvents<'a> = Records<'a, AuditEvent<'a>>;

impl<'a, T> Records<'a, T> {
    fn of(answer: &'a [u8], read: fn(&'a [u8]) -> Option<T>) -> Option<Self> {
        let (head, bytes) = Head::report(answer)?;
        let counted = usize::try_from(head.count).ok()?.checked_mul(RECORD_WIDTH)?;
        let legal = bytes.len() == counted && bytes.chunks(RECORD_WIDTH).all(|record| read(record).is_some());
        legal.then_some(Records { bytes, read, items: PhantomData })
    }
}

impl<'a> Alarms<'a> {
    pub(crate) fn read(answer: &'a [u8]) -> Option<Self> {
        Records::of(answer, Alarm::read)
    }
}

impl<'a> AuditEvents<'a> {
    pub(crate) fn read(answer: &'a [u8]) -> Option<Self> {
        Records::of(answer, AuditEvent::read)
    }
}

impl<T> Iterator for Records<'_, T> {
    type Item = T;

    fn next(&mut self) -> Option<T> {
        let (record, rest) = self.bytes.split_at_checked(RECORD_WIDTH)?;
        self.bytes = rest;
        (self.read)(record)
    }

    fn size_hint(&self) -> (usize, Option<usize>) {
        let left = self.bytes.len() / RECORD_WIDTH;
        (left, Some(left))
    }
}

impl<T> ExactSizeIterator for Records<'_, T> {}

/// How many active alarms have one severity and one cause.
#[derive(Clone, Copy, Debug, PartialEq, Eq)]
pub struct Count<'a> {
    /// The severity.
    pub severity: Severity,
    /// How many.
    pub alarms: u32,
    /// The cause.
    pub cause: &'a str,
}

impl fmt::Display for Count<'_> {
    fn fmt(&self, f: &mut fmt::Formatter<'_>) -> fmt::Result {
        write!(f, "{} {} {}", self.alarms, self.severity, self.cause)
    }
}

/// Counts by severity and cause, in the order in which they first appear among the active alarms.
#[derive(Clone, Debug)]
pub struct Counts<'a> {
    bytes: &'a [u8],
    left: usize,
}

impl<'a> Counts<'a> {
    pub(crate) fn read(answer: &'a [u8]) -> Option<Self> {
        let (head, bytes) = Head::report(answer)?;
        let counts = Counts { bytes, left: usize::try_from(head.count).ok()? };
        let mut fields = Fields(bytes);
        (0..counts.left).try_for_each(|_| Counts::one(&mut fields).map(|_| ()))?;
        fields.0.is_empty().then_some(counts)
    }

    fn one(fields: &mut Fields<'a>) -> Option<Count<'a>> {
        Some(Count {
            severity: Severity::from_byte(fields.byte()?)?,
            alarms: fields.u32()?,
            cause: fields.string(crate::layout::longest::CAUSE)?,
        })
    }
}

impl<'a> Iterator for Counts<'a> {
    type Item = Count<'a>;

    fn next(&mut self) -> Option<Count<'a>> {
        self.left = self.left.checked_sub(1)?;
        let mut fields = Fields(self.bytes);
        let count = Counts::one(&mut fields);
        self.bytes = fields.0;
        count
    }

    fn size_hint(&self) -> (usize, Option<usize>) {
        (self.left, Some(self.left))
    }
}

impl ExactSizeIterator for Counts<'_> {}

/// The station at a glance: how many alarms are active, and the headline.
///
/// The headline is work that waits: the worst severity, and what it means for the station, of the active alarms that are not
/// suppressed. Acknowledged alarms are on it; suppressed ones are left aside, whatever their severity, and counted in `active`
/// all the same. [`ListActive`](crate::ListActive) lists them too:
///
/// ```
/// use alarm_register::{Limits, ListActive, Object, PlainAction, Raise, Readiness, Register, Severity, State, Summarise, Time};
///
/// let limits = Limits { active: 16, history: 64, audit: 16 };
/// let mut bytes = vec![0; limits.register_length()];
/// let mut answer = vec![0; limits.answer_room()];
/// let mut register = Register::open(&mut bytes, limits)?;
///
/// let brake = Object::Interface { nf: "tower-9", name: "brake" };
/// let open = Raise::new(Time(0), "A-1", "line.brake", Severity::Major, "other:ropeway.brake-open", brake);
/// register.perform(&open, &mut answer)?;
/// register.perform(&PlainAction::suppress(Time(1), "A-1").authorised(true), &mut answer)?;
///
/// let summary = register.perform(&Summarise, &mut answer)?;
/// assert_eq!((summary.active, summary.worst, summary.readiness), (1, None, Readiness::NoImpact));
/// assert_eq!(summary.to_string(), "1 active, all suppressed, no impact; audit events: 0 stored, 0 lost");
/// let active = register.perform(&ListActive { severity: None }, &mut answer)?;
/// assert_eq!(active.filter(|alarm| alarm.state == State::Suppressed).count(), 1);
/// # Ok::<(), alarm_register::Refusal>(())
/// ```
#[derive(Clone, Copy, Debug, PartialEq, Eq)]
pub struct Summary {
    /// How many alarms are active, suppressed ones among them.
    pub active: u64,
    /// The worst severity of those that are not suppressed; `None` where there is none.
    pub worst: Option<Severity>,
    /// What the worst of those that are not suppressed means for the station.
    pub readiness: Readiness,
    /// Audit events stored since opening.
    pub successes: u64,
    /// Audit events lost since opening, because the audit trail was full.
    pub failures: u64,
}

impl Summary {
    pub(crate) fn read(answer: &[u8]) -> Option<Self> {
        let (head, body) = Head::report(answer)?;
        let mut fields = Fields(body);
        let worst = match fields.byte()? {
            255 => None,
            byte => Some(Severity::from_byte(byte)?),
        };
        let readiness = Readiness::from_byte(fields.byte()?)?;
        let summary = Summary { active: head.number, worst, readiness, successes: fields.u64()?, failures: fields.u64()? };
        fields.0.is_empty().then_some(summary)
    }
}

impl fmt::Display for Summary {
    fn fmt(&self, f: &mut fmt::Formatter<'_>) -> fmt::Result {
        write!(f, "{} active, ", self.active)?;
        match self.worst {
            Some(worst) => write!(f, "worst of those not suppressed: {worst}, ")?,
            None if self.active > 0 => f.write_str("all suppressed, ")?,
            None => {}
        }
        write!(f, "{}; audit events: {} stored, {} lost", self.readiness, self.successes, self.failures)
    }
}
