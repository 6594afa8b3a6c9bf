//! A list of calls in which one raise has another severity.
use crate::list::List;
use crate::text::{self, Zone};
use alarm_register::layout::longest;
use alarm_register::Severity;

/// The operation byte of a raise.
const RAISE: u8 = 1;
/// Where a raise's id begins: behind the operation and the time.
const ID_AT: usize = 9;
/// More of a call is not told.
const MOST_TOLD: usize = 200;
/// Why a raise has no severity.
const ENDS: &str = "ends before its severity";
const REFUSED: &str = "is refused for its id or its type, and so has no severity";

/// One raise of a list, and its two severities.
#[derive(Clone, Debug, PartialEq, Eq)]
pub struct Change {
    /// The raise's number, from 1.
    pub number: usize,
    /// The severity that it has in the list.
    pub listed: Severity,
    /// The severity that it gets.
    pub changed: Severity,
    /// Where its severity stands among its bytes.
    at: usize,
}

impl Change {
    /// The change of a call's severity, or why the call has none to change.
    pub fn of(list: &List, number: usize, changed: Severity, zone: Zone) -> Result<Change, String> {
        let call = list.call(number)?;
        let fault = |what: &str| format!("call {number} {what}: {}", told(call, zone));
        if call.first() != Some(&RAISE) {
            return Err(fault("is no raise"));
        }
        let at = severity_at(call).map_err(fault)?;
        let listed = Severity::from_byte(call[at])
            .ok_or_else(|| fault(&format!("has {} as its severity, and a severity is 0 to 5", call[at])))?;
        if listed == changed {
            return Err(fault(&format!("has severity {listed} already")));
        }
        Ok(Change { number, listed, changed, at })
    }

    /// The list with the change made.
    pub fn made(&self, list: &List) -> List {
        let mut changed = list.clone();
        changed.calls[self.number - 1][self.at] = self.changed.byte();
        changed
    }

    /// The raise as people read it.
    pub fn told(&self, list: &List, zone: Zone) -> String {
        told(&list.calls[self.number - 1], zone)
    }
}

/// A call as people read it, cut where it is long.
fn told(call: &[u8], zone: Zone) -> String {
    let line = text::line(call, zone);
    match line.char_indices().nth(MOST_TOLD) {
        Some((end, _)) => format!("{} ..", line[..end].trim_end()),
        None => line,
    }
}

/// Where the severity of a raise stands, behind its id and its type, or why it has none.
fn severity_at(raise: &[u8]) -> Result<usize, &'static str> {
    let behind_id = behind(raise, ID_AT, longest::ID)?;
    let at = behind(raise, behind_id, longest::TYPE)?;
    if at < raise.len() {
        Ok(at)
    } else {
        Err(ENDS)
    }
}

/// What stands behind a string, which has its length before it. A string that is refused has no field behind it.
fn behind(raise: &[u8], at: usize, longest: usize) -> Result<usize, &'static str> {
    let length = raise.get(at..).and_then(<[u8]>::first_chunk).map(|bytes| u32::from_be_bytes(*bytes)).ok_or(ENDS)?;
    let length = usize::try_from(length).ok().filter(|length| *length <= longest).ok_or(REFUSED)?;
    let end = at + 4 + length;
    std::str::from_utf8(raise.get(at + 4..end).ok_or(ENDS)?).map_err(|_| REFUSED).map(|_| end)
}

#[cfg(test)]
mod tests {
    use super::{severity_at, told, Change, List, Zone};
    use alarm_register::{Limits, Object, Operation, Raise, Severity, Summarise, Time};

    fn raise() -> Vec<u8> {
        let object = Object::Tenant { tenant: "a" };
        Raise::new(Time(0), "two", "three", Severity::Minor, "lease-lost", object).call().as_bytes().to_vec()
    }

    fn list(calls: Vec<Vec<u8>>) -> List {
        List { limits: Limits { active: 2, history: 3, audit: 1 }, answer: None, calls }
    }

    fn fault(call: Vec<u8>) -> String {
        Change::of(&list(vec![call]), 1, Severity::Major, Zone::default()).unwrap_err()
    }

    #[test]
    fn one_byte_of_one_call_is_changed() {
        let listed = list(vec![raise(), raise(), raise()]);
        let change = Change::of(&listed, 2, Severity::Cleared, Zone::default()).unwrap();
        let changed = change.made(&listed);
        assert_eq!((&changed.calls[0], &changed.calls[2]), (&listed.calls[0], &listed.calls[2]));
        let differing: Vec<usize> = (0..raise().len()).filter(|at| changed.calls[1][*at] != listed.calls[1][*at]).collect();
        assert_eq!(differing, [1 + 8 + 4 + 3 + 4 + 5]);
        assert_eq!((listed.calls[1][25], changed.calls[1][25]), (3, 0));
    }

    #[test]
    fn a_severity_is_there_once_its_byte_is() {
        let whole = raise();
        for length in 0..=whole.len() {
            let wanted = if length > 25 { Ok(25) } else { Err("ends before its severity") };
            assert_eq!(severity_at(&whole[..length]), wanted, "{length} bytes");
        }
    }

    #[test]
    fn a_raise_that_is_refused_for_its_id_or_type_has_no_severity() {
        let refused = "is refused for its id or its type, and so has no severity";
        for (at, bytes) in [(9, &[255; 4][..]), (9, &[0, 0, 0, 65]), (13, &[0xff]), (16, &[0, 0, 0, 65]), (20, &[0xc0])] {
            let mut raise = raise();
            raise[at..at + bytes.len()].copy_from_slice(bytes);
            assert_eq!(severity_at(&raise), Err(refused), "{bytes:?} at {at}");
            assert!(fault(raise).starts_with(&format!("call 1 {refused}: raw 01")));
        }
        let long = "i".repeat(64);
        let longest = Raise::new(Time(0), &long, &long, Severity::Minor, "lease-lost", Object::Tenant { tenant: "a" }).call();
        assert_eq!(severity_at(longest.as_bytes()), Ok(9 + 2 * (4 + 64)));
    }

    #[test]
    fn a_call_without_a_severity_to_change_is_told() {
        let mut illegal = raise();
        illegal[25] = 6;
        assert!(fault(illegal).starts_with("call 1 has 6 as its severity, and a severity is 0 to 5: raw 01"));
        assert_eq!(fault(Summarise.call().as_bytes().to_vec()), "call 1 is no raise: summary");
        assert!(fault(vec![]).starts_with("call 1 is no raise: raw # refused: 23"));
        let listed = list(vec![raise()]);
        let change = |number, severity| Change::of(&listed, number, severity, Zone::default()).unwrap_err();
        assert_eq!(change(2, Severity::Major), "there is no call 2: the list has 1");
        assert_eq!(change(0, Severity::Major), "there is no call 0: the list has 1");
        assert!(change(1, Severity::Minor).starts_with("call 1 has severity minor already: 1970-01-01 00:00:00 raise id=two"));
    }

    #[test]
    fn long_calls_are_cut() {
        let long = told(&[0xff; 5_000], Zone::default());
        assert_eq!((long.len(), &long[..8], &long[198..]), (203, "raw ffff", "ff .."));
    }
}
