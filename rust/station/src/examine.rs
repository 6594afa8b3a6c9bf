//! Where to look in bytes that are not a sound register: a help for people. Whether they are sound, the register says.
use crate::chain::{self, number};
use crate::record::{self, Chain};
use alarm_register::layout::header;
use alarm_register::RECORD_WIDTH;

/// A place where something is wrong.
#[derive(Debug, PartialEq, Eq)]
pub struct Finding {
    /// The record, 0 for the header.
    pub record: usize,
    /// The byte, from the file's start.
    pub byte: usize,
    /// What is wrong there.
    pub what: String,
}

fn finding(byte: usize, what: String) -> Finding {
    Finding { record: byte / RECORD_WIDTH, byte, what }
}

/// The lengths of the four chains as the header gives them.
pub fn lengths(bytes: &[u8]) -> [usize; 4] {
    header::HEADS.map(|head| chain::length(bytes, head))
}

/// What is wrong with the bytes of a register.
pub fn register(bytes: &[u8]) -> Vec<Finding> {
    let mut findings = head(bytes);
    if findings.is_empty() {
        let on_chain = chains(bytes, &mut findings);
        findings.extend(lost(&on_chain));
        for (index, chain) in on_chain.iter().enumerate() {
            let start = index * RECORD_WIDTH;
            let faults = chain.map(|chain| record::faults(chain, &bytes[start..start + RECORD_WIDTH])).unwrap_or_default();
            findings.extend(faults.into_iter().map(|(at, what)| finding(start + at, what)));
        }
    }
    findings
}

/// The records that no chain leads to, told once: they are often lost together, where a chain is broken.
fn lost(on_chain: &[Option<Chain>]) -> Option<Finding> {
    let mut lost = (1..on_chain.len()).filter(|index| on_chain[*index].is_none());
    let first = lost.next()?;
    let what = match lost.count() {
        0 => "this record lies on no chain".to_string(),
        others => format!("this record and {others} behind it lie on no chain"),
    };
    Some(finding(first * RECORD_WIDTH, what))
}

/// What is wrong with the length, the limits and the rest of the header.
fn head(bytes: &[u8]) -> Vec<Finding> {
    if bytes.len() < RECORD_WIDTH {
        return vec![finding(0, format!("there are {} bytes; the header alone has {RECORD_WIDTH}", bytes.len()))];
    }
    let limits = header::LIMITS.map(|at| number(bytes, at));
    let names = ["active", "history", "audit"];
    let wrong = (0..3).filter(|place| !(1..=65_535).contains(&limits[*place]));
    let mut findings: Vec<Finding> = wrong
        .map(|place| {
            finding(
                header::LIMITS[place],
                format!("the limit of the {} chain is {}, not 1 to 65535", names[place], limits[place]),
            )
        })
        .collect();
    let expected = RECORD_WIDTH * (1 + limits.iter().sum::<usize>());
    if findings.is_empty() && bytes.len() != expected {
        findings.push(finding(header::LIMITS[0], format!("these limits need {expected} bytes, and there are {}", bytes.len())));
    }
    if let Some(at) = (header::SPARE..RECORD_WIDTH).find(|at| bytes[*at] != 0) {
        findings.push(finding(at, format!("a byte without meaning is {}, not zero", bytes[at])));
    }
    findings
}

/// The chain of every record, as far as one leads to it; what is wrong with the chains is added to the findings.
fn chains(bytes: &[u8], findings: &mut Vec<Finding>) -> Vec<Option<Chain>> {
    let mut on_chain = vec![None; bytes.len() / RECORD_WIDTH];
    for (chain, head) in Chain::ALL.into_iter().zip(header::HEADS) {
        findings.extend(walk(bytes, chain, head, &mut on_chain));
        let length = number(bytes, head + 4);
        let limit = header::LIMITS.get(chain as usize).map_or(usize::MAX, |at| number(bytes, *at));
        if length > limit {
            findings.push(finding(head + 4, format!("the {chain} chain's length is {length}, above its limit {limit}")));
        }
    }
    on_chain
}

/// Follows one chain from its head for as many records as its length says, and gives what stops it before its end.
fn walk(bytes: &[u8], chain: Chain, head: usize, on_chain: &mut [Option<Chain>]) -> Option<Finding> {
    let (mut link, length, last) = (head, number(bytes, head + 4), on_chain.len() - 1);
    for found in 0..=length {
        let index = number(bytes, link);
        let fault = match on_chain.get_mut(index) {
            _ if index == 0 && found == length => return None,
            _ if index == 0 => {
                let what = format!("the {chain} chain's length is {length}, and it ends after {found} records, at byte {link}");
                return Some(finding(head + 4, what));
            }
            _ if found == length => format!("the {chain} chain goes on to record {index} behind its {length} records"),
            None => format!("the {chain} chain leads to record {index}, and the last is {last}"),
            Some(Some(earlier)) => {
                format!("the {chain} chain leads to record {index}, which lies on the {earlier} chain already")
            }
            Some(free) => {
                *free = Some(chain);
                link = index * RECORD_WIDTH;
                continue;
            }
        };
        return Some(finding(link, fault));
    }
    None
}

#[cfg(test)]
mod tests {
    use super::{finding, register};
    use alarm_register::layout::alarm::{END, RAISES, STATE};
    use alarm_register::{Limits, Object, Raise, Register, Severity, SuppressUntil, Time, ANSWER_ROOM, RECORD_WIDTH};

    /// A register with two active alarms, the first suppressed until a time, three entries of history and one event.
    fn filled(limits: Limits) -> Vec<u8> {
        let (mut bytes, mut answer) = (vec![0; limits.register_length()], [0; ANSWER_ROOM]);
        let mut opened = Register::open(&mut bytes, limits).unwrap();
        let queue = Object::DataPlaneQueue { nf: "n", interface: "i", queue: 7 };
        let store = Object::SessionStore { nf: "n", shard: Some("s") };
        for (id, object) in [("a", queue), ("b", store)] {
            let raise = Raise::new(Time(1), id, "t", Severity::Minor, "other:a.b", object).region("r").details(b"d");
            opened.perform(&raise, &mut answer).unwrap();
        }
        opened.perform(&SuppressUntil::new(Time(2), Time(3), "a", "p").authorised(true), &mut answer).unwrap();
        bytes
    }

    #[test]
    fn a_place_is_found_exactly_where_a_register_is_not_sound() {
        let whole = filled(Limits { active: 2, history: 3, audit: 1 });
        assert_eq!(register(&whole), []);
        let (mut state, mut unsound) = (7u64, 0);
        for _ in 0..5_000 {
            let mut bytes = whole.clone();
            for _ in 0..2 {
                state = state.wrapping_mul(6_364_136_223_846_793_005).wrapping_add(1_442_695_040_888_963_407);
                let (place, value) = ((state >> 33) as usize, (state >> 24) as u8);
                // half of the damages are to the header and to the first bytes of records, where the links are
                let at = if place % 2 == 0 { place / 2 % bytes.len() } else { place / 14 % 7 * RECORD_WIDTH + place / 2 % 60 };
                bytes[at] = value % [2, 8, 255][place % 3];
            }
            let sound = Register::over(&mut bytes).is_sound();
            unsound += usize::from(!sound);
            assert_eq!(register(&bytes).is_empty(), sound);
        }
        assert!((1_250..5_000).contains(&unsound), "{unsound}");
    }

    #[test]
    fn raises_of_an_alarm_may_be_any_number_and_elsewhere_their_bytes_have_no_meaning() {
        let whole = filled(Limits { active: 2, history: 4, audit: 2 });
        let mut unsound = Vec::new();
        for at in (0..9 * 4).map(|place| place / 4 * RECORD_WIDTH + RAISES + place % 4) {
            let mut bytes = whole.clone();
            bytes[at] = 255;
            let sound = Register::over(&mut bytes).is_sound();
            let wrong = finding(at, "a byte without meaning is 255, not zero".to_string());
            assert_eq!(register(&bytes), if sound { vec![] } else { vec![wrong] });
            unsound.extend((!sound).then_some(at / RECORD_WIDTH));
        }
        // each of the four bytes in the header, in the event and in two free records; not in five alarms
        assert_eq!(unsound, [0, 5, 7, 8].map(|record| [record; 4]).concat());
    }
    #[test]
    fn an_end_is_told_where_the_state_has_none() {
        let whole = filled(Limits { active: 2, history: 4, audit: 2 });
        // records 1 and 3 are the active alarms, 2 and 4 their entries of history, 6 that of the suppression
        for (record, state, said) in
            [(1, 0, "raised"), (1, 1, "updated"), (1, 2, "acknowledged"), (6, 4, "cleared"), (6, 5, "expired")]
        {
            let mut bytes = whole.clone();
            bytes[record * RECORD_WIDTH + STATE] = state;
            let what = format!("an end is present in state {said}, and only suppressed has one");
            assert!(!Register::over(&mut bytes).is_sound());
            assert_eq!(register(&bytes), [finding(record * RECORD_WIDTH + END, what)]);
        }
        for (record, at, value, said) in [
            (2, END, 1, "an end is present in state raised, and only suppressed has one"),
            (1, END, 2, "the option byte of end is 2, not 0 to 1"),
            (3, END + 8, 9, "a byte without meaning is 9, not zero"),
            (5, END, 1, "a byte without meaning is 1, not zero"),
        ] {
            let mut bytes = whole.clone();
            bytes[record * RECORD_WIDTH + at] = value;
            assert!(!Register::over(&mut bytes).is_sound());
            assert_eq!(register(&bytes)[0], finding(record * RECORD_WIDTH + at, said.to_string()));
        }
        for (record, at, value) in [(1, END + 1, 255), (6, END + 8, 0)] {
            let mut bytes = whole.clone();
            bytes[record * RECORD_WIDTH + at] = value;
            assert!(Register::over(&mut bytes).is_sound());
            assert_eq!(register(&bytes), []);
        }
    }
}
