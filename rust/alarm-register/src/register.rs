//! A register over lent bytes.
use crate::entry;
use crate::layout::{header, HEAD_WIDTH, RECORD_WIDTH};
use crate::operation::Operation;
use crate::refusal::Refusal;
use core::fmt;

/// How many alarms may be active, and how many entries history and audit trail hold; each 1 to 65,535.
#[derive(Clone, Copy, Debug, PartialEq, Eq)]
pub struct Limits {
    /// Active alarms.
    pub active: u32,
    /// Entries of history.
    pub history: u32,
    /// Audit events.
    pub audit: u32,
}

impl Limits {
    /// The length of a register with these limits; limits that are refused have one too, so that 20 can be told.
    pub fn register_length(self) -> usize {
        let records = u64::from(self.active) + u64::from(self.history) + u64::from(self.audit) + 1;
        usize::try_from(records).unwrap_or(usize::MAX).saturating_mul(RECORD_WIDTH)
    }

    /// A length of answer slice that no operation on a register with these limits refuses.
    pub fn answer_room(self) -> usize {
        let longest = self.active.max(self.history).max(self.audit).max(1);
        usize::try_from(longest).unwrap_or(usize::MAX).saturating_mul(RECORD_WIDTH).saturating_add(HEAD_WIDTH)
    }
}

impl fmt::Display for Limits {
    fn fmt(&self, f: &mut fmt::Formatter<'_>) -> fmt::Result {
        write!(f, "{} active, {} in history, {} in audit", self.active, self.history, self.audit)
    }
}

/// A register: its bytes are lent, and hold everything.
///
/// While it is lent nothing else can read or change the bytes; give it up and they are the caller's again, to be stored or
/// sent. Every call checks first that the bytes are a sound register, so bytes of any origin may be lent.
///
/// ```
/// use alarm_register::{Limits, Object, Raise, RaiseAnswer, Register, Severity, Summarise, Time, ANSWER_ROOM};
///
/// let limits = Limits { active: 4, history: 8, audit: 2 };
/// let mut bytes = vec![0; limits.register_length()];
/// let mut answer = [0; ANSWER_ROOM];
///
/// let mut register = Register::open(&mut bytes, limits)?;
/// let drive = Object::Interface { nf: "drive", name: "converter" };
/// let trip = Raise::new(Time(0), "A1", "drive.trip", Severity::Critical, "other:ropeway.drive-trip", drive).text("overcurrent");
/// match register.perform(&trip, &mut answer)? {
///     RaiseAnswer::Raised(alarm) => assert_eq!(alarm.text, "overcurrent"),
///     other => panic!("{other:?}"),
/// }
/// assert_eq!(register.perform(&Summarise, &mut answer)?.active, 1);
/// # Ok::<(), alarm_register::Refusal>(())
/// ```
///
/// The register cannot be used while its bytes are used otherwise:
///
/// ```compile_fail
/// # use alarm_register::{Limits, Register, Summarise, ANSWER_ROOM};
/// let mut bytes = vec![0; 4 * 1536];
/// let mut register = Register::over(&mut bytes);
/// bytes[0] = 1;
/// register.perform(&Summarise, &mut [0; ANSWER_ROOM]).ok();
/// ```
pub struct Register<'a> {
    bytes: &'a mut [u8],
}

impl<'a> Register<'a> {
    /// Makes a fresh register of the bytes, whatever they held.
    ///
    /// # Errors
    /// 20 for limits out of range, 21 for bytes of another length than [`Limits::register_length`]; they are as they were.
    pub fn open(bytes: &'a mut [u8], limits: Limits) -> Result<Register<'a>, Refusal> {
        entry::open(bytes, limits.active, limits.history, limits.audit)?;
        Ok(Register { bytes })
    }

    /// The register that the bytes hold, as they were stored. Whether they are sound, each call checks anew.
    pub fn over(bytes: &'a mut [u8]) -> Register<'a> {
        Register { bytes }
    }

    /// The bytes, to be stored or sent.
    pub fn as_bytes(&self) -> &[u8] {
        self.bytes
    }

    /// The limits that the header gives; of any meaning only where the register is sound.
    pub fn limits(&self) -> Option<Limits> {
        let [active, history, audit] = header::LIMITS.map(|at| self.number(at));
        Some(Limits { active: active?, history: history?, audit: audit? })
    }

    /// How many alarms are active, as the header gives it; of any meaning only where the register is sound.
    pub fn active_length(&self) -> Option<u32> {
        let [active_head, ..] = header::HEADS;
        self.number(active_head + 4)
    }

    /// A number of the header.
    fn number(&self, at: usize) -> Option<u32> {
        self.bytes.get(at..at + 4)?.try_into().ok().map(u32::from_be_bytes)
    }

    /// Performs an operation, with the slice as room for the answer.
    ///
    /// # Errors
    /// One of 22 to 31, 33 or 34; register and slice are then as they were. [`ANSWER_ROOM`](crate::ANSWER_ROOM) is enough for all
    /// operations but lists, counts and taking audit events; [`Limits::answer_room`] is enough for these.
    ///
    /// # Panics
    /// If the linked library is not the one that this crate was made for, and answers in another form.
    pub fn perform<'b, O: Operation>(&mut self, operation: &O, answer: &'b mut [u8]) -> Result<O::Answer<'b>, Refusal> {
        let answer = self.step(operation.call().as_bytes(), answer)?;
        Ok(O::read_answer(answer).expect("the linked library answers in the form of document 01"))
    }

    /// Performs a call given as bytes; gives the part of the slice that the answer fills.
    ///
    /// # Errors
    /// One of 22 to 31, 33 or 34; register and slice are then as they were.
    pub fn step<'b>(&mut self, call: &[u8], answer: &'b mut [u8]) -> Result<&'b [u8], Refusal> {
        entry::step(self.bytes, call, answer)
    }

    /// Whether the bytes are a sound register.
    pub fn is_sound(&mut self) -> bool {
        // an empty call is refused, with 23 if the register was found sound before it
        self.step(&[], &mut []) != Err(Refusal::Unsound)
    }
}

/// The bytes, as [`Register::as_bytes`] gives them: for a look that only reads, such as [`Panel::look`](crate::Panel::look).
impl AsRef<[u8]> for Register<'_> {
    fn as_ref(&self) -> &[u8] {
        self.bytes
    }
}

impl fmt::Debug for Register<'_> {
    fn fmt(&self, f: &mut fmt::Formatter<'_>) -> fmt::Result {
        write!(f, "Register of {} bytes", self.bytes.len())
    }
}

/// Whether a register would take a call, as far as the call itself decides; [`Operation::check`] asks it of an operation.
///
/// # Errors
/// One of 23 to 29, 33 or 34.
///
/// ```
/// use alarm_register::{check_call, Refusal};
/// assert_eq!(check_call(&[11]), Ok(()));
/// assert_eq!(check_call(&[11, 0]), Err(Refusal::CallLength));
/// ```
pub fn check_call(call: &[u8]) -> Result<(), Refusal> {
    let mut bytes = [0; 4 * RECORD_WIDTH];
    let mut register = Register::open(&mut bytes, Limits { active: 1, history: 1, audit: 1 })?;
    // every answer is longer than none, and that is looked at after the call
    match register.step(call, &mut []) {
        Err(Refusal::AnswerLength) | Ok(_) => Ok(()),
        Err(refusal) => Err(refusal),
    }
}
