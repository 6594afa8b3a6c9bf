//! Answers: what a register says to operations 1 to 6 and 13, and the head of every answer.
use crate::bytes::Fields;
use crate::layout::RECORD_WIDTH;
use crate::record::{Alarm, Key};

/// The head of an answer.
#[derive(Clone, Copy, Debug, PartialEq, Eq)]
pub struct Head {
    /// Which answer: 1 to 10 as [`code_name`] names them, 11 for operations 7 to 12 and 14.
    pub code: u8,
    /// How many items follow.
    pub count: u32,
    /// The number that goes with the answer.
    pub number: u64,
}

impl Head {
    /// The head of an answer, and what follows it.
    pub fn read(answer: &[u8]) -> Option<(Head, &[u8])> {
        let mut fields = Fields(answer);
        let [code, 0, 0, 0] = fields.array()? else { return None };
        Some((Head { code, count: fields.u32()?, number: fields.u64()? }, fields.0))
    }

    /// The head of an answer to operations 7 to 12 and 14, and what follows it.
    pub(crate) fn report(answer: &[u8]) -> Option<(Head, &[u8])> {
        Head::read(answer).filter(|(head, _)| head.code == 11)
    }
}

/// The name of an answer's code, for people: codes 1 to 10, and `report` for 11.
pub fn code_name(code: u8) -> Option<&'static str> {
    let names = [
        "raised",
        "updated",
        "cleared",
        "clear without active",
        "active limit exceeded",
        "suppressed",
        "acknowledged",
        "unauthorized",
        "audit failed",
        "not found",
        "report",
    ];
    names.get(usize::from(code).checked_sub(1)?).copied()
}

/// What a raise is answered by.
#[derive(Clone, Copy, Debug, PartialEq, Eq)]
pub enum RaiseAnswer<'a> {
    /// A new alarm is active.
    Raised(Alarm<'a>),
    /// The active alarm with this key was updated.
    Updated(Alarm<'a>),
    /// The alarm would be new, and as many are active as may be.
    ActiveLimitExceeded {
        /// Its key.
        key: Key,
        /// The limit.
        limit: u64,
    },
}

/// What a clear is answered by.
#[derive(Clone, Copy, Debug, PartialEq, Eq)]
pub enum ClearAnswer<'a> {
    /// The active alarm with this key was cleared.
    Cleared {
        /// Its id.
        id: &'a str,
    },
    /// No active alarm has the key.
    WithoutActive {
        /// The key.
        key: Key,
        /// The call's cause, as a register would store it.
        cause: &'a str,
    },
}

/// What an acknowledgement or a suppression is answered by.
#[derive(Clone, Copy, Debug, PartialEq, Eq)]
pub enum ActionAnswer<'a> {
    /// The alarm is suppressed.
    Suppressed(Alarm<'a>),
    /// The alarm is acknowledged.
    Acknowledged(Alarm<'a>),
    /// It was not allowed.
    Unauthorized {
        /// Why.
        message: &'a str,
    },
    /// It was allowed, and is not done since its audit event could not be stored.
    AuditFailed {
        /// Why.
        message: &'a str,
    },
    /// No active alarm has the id.
    NotFound {
        /// The id.
        id: &'a str,
    },
}

/// The alarm that is the whole of an answer's body.
fn alarm(body: &[u8]) -> Option<Alarm<'_>> {
    (body.len() == RECORD_WIDTH).then_some(body).and_then(Alarm::read)
}

/// The string that is the whole of an answer's body.
fn string(body: &[u8]) -> Option<&str> {
    let mut fields = Fields(body);
    let string = fields.string(RECORD_WIDTH)?;
    fields.0.is_empty().then_some(string)
}

impl<'a> RaiseAnswer<'a> {
    pub(crate) fn read(answer: &'a [u8]) -> Option<Self> {
        let (head, body) = Head::read(answer)?;
        match head.code {
            1 => alarm(body).map(RaiseAnswer::Raised),
            2 => alarm(body).map(RaiseAnswer::Updated),
            5 => Some(RaiseAnswer::ActiveLimitExceeded { key: Key::from_digits(body)?, limit: head.number }),
            _ => None,
        }
    }
}

impl<'a> ClearAnswer<'a> {
    pub(crate) fn read(answer: &'a [u8]) -> Option<Self> {
        let (head, body) = Head::read(answer)?;
        match head.code {
            3 => Some(ClearAnswer::Cleared { id: string(body)? }),
            4 => {
                let (digits, cause) = body.split_at_checked(32)?;
                Some(ClearAnswer::WithoutActive { key: Key::from_digits(digits)?, cause: string(cause)? })
            }
            _ => None,
        }
    }
}

impl<'a> ActionAnswer<'a> {
    pub(crate) fn read(answer: &'a [u8]) -> Option<Self> {
        let (head, body) = Head::read(answer)?;
        match head.code {
            6 => alarm(body).map(ActionAnswer::Suppressed),
            7 => alarm(body).map(ActionAnswer::Acknowledged),
            8 => Some(ActionAnswer::Unauthorized { message: string(body)? }),
            9 => Some(ActionAnswer::AuditFailed { message: string(body)? }),
            10 => Some(ActionAnswer::NotFound { id: string(body)? }),
            _ => None,
        }
    }
}
