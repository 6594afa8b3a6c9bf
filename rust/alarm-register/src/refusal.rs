//! Refusals: why a call was not performed.
use core::fmt;

/// Why opening, a call, or a look or a write of a panel was refused. Register, answer slice and panel block are then as they were.
///
/// Each has its number and a sentence. Checks go in the order of 20 to 31, and the first fault is told; a call is read field by
/// field, and of 23 to 29 and 33 the one that is met first is told: 33 at a raise's text, directly after 26 and 27 for it. 34 comes
/// behind all of these, bytes left over (24) among them, and before 30. Opening gives 20 and 21, a call 22 to 31, 33 or 34, and a panel
/// 22 or 30: that the library returns no other number is proved (docs/NUMBERS.md), so a host that handles [`Refusal::ALL`] handles all.
///
/// ```
/// use alarm_register::Refusal;
/// assert_eq!(Refusal::Cause.number(), 28);
/// assert_eq!(Refusal::Cause.to_string(), "28: the cause is not a known name, nor `other:` and a name with a dot");
/// ```
#[derive(Clone, Copy, Debug, PartialEq, Eq, Hash, PartialOrd, Ord)]
#[non_exhaustive]
pub enum Refusal {
    /// 20: a limit is 0 or above 65,535.
    Limits,
    /// 21: the register's length is not 1,536 bytes for the header and for each record of the limits.
    RegisterLength,
    /// 22: the bytes that a call or a panel was given are not a sound register.
    Unsound,
    /// 23: the call is empty, or its operation is not 1 to 14.
    Operation,
    /// 24: the call ends early, or has bytes left over.
    CallLength,
    /// 25: a byte of the call is outside its values.
    Value,
    /// 26: a string of the call is longer than its limit.
    TooLong,
    /// 27: a string of the call is not UTF-8.
    Utf8,
    /// 28: the cause is not a known name, nor `other:` and a name with a dot.
    Cause,
    /// 29: the raise has a region that is present and empty.
    Region,
    /// 30: the slice is too short for the answer, or is not the eight bytes of a panel block.
    AnswerLength,
    /// 31: the raise would store an id that is active.
    IdActive,
    /// 33: the raise's text has more than 120 code points.
    CodePoints,
    /// 34: the suppression's end is not later than the call's time.
    End,
    /// A number that this crate does not know: the linked library is newer.
    Unlisted(u32),
}

impl Refusal {
    /// All refusals, by rising number.
    pub const ALL: [Refusal; 14] = [
        Refusal::Limits,
        Refusal::RegisterLength,
        Refusal::Unsound,
        Refusal::Operation,
        Refusal::CallLength,
        Refusal::Value,
        Refusal::TooLong,
        Refusal::Utf8,
        Refusal::Cause,
        Refusal::Region,
        Refusal::AnswerLength,
        Refusal::IdActive,
        Refusal::CodePoints,
        Refusal::End,
    ];

    /// The refusal of a number.
    pub fn from_number(number: u32) -> Refusal {
        let known = Refusal::ALL.into_iter().find(|refusal| refusal.number() == number);
        known.unwrap_or(Refusal::Unlisted(number))
    }

    /// The number that the library returns.
    pub fn number(self) -> u32 {
        match self {
            Refusal::Limits => 20,
            Refusal::RegisterLength => 21,
            Refusal::Unsound => 22,
            Refusal::Operation => 23,
            Refusal::CallLength => 24,
            Refusal::Value => 25,
            Refusal::TooLong => 26,
            Refusal::Utf8 => 27,
            Refusal::Cause => 28,
            Refusal::Region => 29,
            Refusal::AnswerLength => 30,
            Refusal::IdActive => 31,
            Refusal::CodePoints => 33,
            Refusal::End => 34,
            Refusal::Unlisted(number) => number,
        }
    }

    /// What is wrong, in one sentence without the number.
    pub fn sentence(self) -> &'static str {
        match self {
            Refusal::Limits => "a limit is 0 or above 65,535",
            Refusal::RegisterLength => {
                "the register's length is not 1,536 bytes for the header and for each record of the limits"
            }
            Refusal::Unsound => "the bytes are not a sound register",
            Refusal::Operation => "the call is empty, or its operation is not 1 to 14",
            Refusal::CallLength => "the call ends early, or has bytes left over",
            Refusal::Value => "a byte of the call is outside its values",
            Refusal::TooLong => "a string of the call is longer than its limit",
            Refusal::Utf8 => "a string of the call is not UTF-8",
            Refusal::Cause => "the cause is not a known name, nor `other:` and a name with a dot",
            Refusal::Region => "the raise has a region that is present and empty",
            Refusal::AnswerLength => "the slice for the answer is too short",
            Refusal::IdActive => "the raise would store an id that is active",
            Refusal::CodePoints => "the raise's text has more than 120 code points",
            Refusal::End => "the suppression's end is not later than the call's time",
            Refusal::Unlisted(_) => "the library gave a number that this program does not know",
        }
    }
}

impl fmt::Display for Refusal {
    fn fmt(&self, f: &mut fmt::Formatter<'_>) -> fmt::Result {
        write!(f, "{}: {}", self.number(), self.sentence())
    }
}

impl core::error::Error for Refusal {}
