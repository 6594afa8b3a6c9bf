//! The balance: what was raised is active, cleared or expired.
use crate::answer::Head;

/// What the answers to a register's calls add up to: alarms raised, cleared and expired.
///
/// After every call, the active length before the first call and what was raised since are together the active length now,
/// what was cleared and what expired. That this holds for every list of calls, refused ones included, is proved of the register
/// (theorem `balance`, crates/station/specs/Theorem.antt); this type, which counts, is plain Rust.
///
/// Counted are answers Raised and Cleared, and the numbers of the answers to expire calls. Not counted are refused calls, raises
/// that update an active alarm or exceed the limit, clears without an active alarm, the number of a summary (operation 11), which
/// is no event but the active length itself, and that of a lift (operation 14), whose alarms were active and stay so.
///
/// ```
/// use alarm_register::{Balance, Expire, Limits, Object, Operation, Raise, Register, Severity, Time, ANSWER_ROOM};
///
/// let limits = Limits { active: 4, history: 8, audit: 2 };
/// let mut bytes = vec![0; limits.register_length()];
/// let mut answer = [0; ANSWER_ROOM];
/// let mut register = Register::open(&mut bytes, limits)?;
/// let drive = Object::Interface { nf: "drive", name: "converter" };
/// let trip = Raise::new(Time(7), "A1", "drive.trip", Severity::Critical, "other:ropeway.drive-trip", drive).call();
/// let expire = Expire { before: Time(8) }.call();
///
/// let mut balance = Balance::default();
/// for call in [&trip, &trip, &expire, &trip] {
///     balance.add(call.as_bytes(), register.step(call.as_bytes(), &mut answer)?);
/// }
/// assert_eq!(balance, Balance { raised: 2, cleared: 0, expired: 1 });
/// let active = register.active_length().unwrap_or_default();
/// assert!(balance.holds(0, active.into()));
/// # Ok::<(), alarm_register::Refusal>(())
/// ```
#[derive(Clone, Copy, Debug, Default, PartialEq, Eq)]
pub struct Balance {
    /// Answers Raised.
    pub raised: u128,
    /// Answers Cleared.
    pub cleared: u128,
    /// The numbers of the answers to expire calls, added up: 2^64 calls with any number have room.
    pub expired: u128,
}

impl Balance {
    /// Adds a call that was performed, and its answer. A refused call has no answer and is not added; bytes that are no answer
    /// count nothing.
    pub fn add(&mut self, call: &[u8], answer: &[u8]) {
        let Some((head, _)) = Head::read(answer) else { return };
        let expired = if call.first() == Some(&7) { head.number } else { 0 };
        // only sums that a caller has set by hand can be so large that they would wrap
        self.raised = self.raised.saturating_add((head.code == 1).into());
        self.cleared = self.cleared.saturating_add((head.code == 3).into());
        self.expired = self.expired.saturating_add(expired.into());
    }

    /// Whether the balance holds between two active lengths: before the first call that was added, which is 0 for a fresh
    /// register, and now, behind the last one. [`Register::active_length`](crate::Register::active_length) reads both.
    pub fn holds(&self, active_before: u128, active_now: u128) -> bool {
        sum(&[active_before, self.raised]) == sum(&[active_now, self.cleared, self.expired])
    }
}

/// A sum that never wraps: how often it passed the largest u128, and what is left.
fn sum(parts: &[u128]) -> (usize, u128) {
    parts.iter().fold((0, 0), |(passed, sum), part| {
        let (sum, passes) = sum.overflowing_add(*part);
        (passed + usize::from(passes), sum)
    })
}
