//! Lists of calls as files; docs/CALLS.md describes the format.
use alarm_register::{Limits, Refusal, Register};

const MAGIC: &[u8; 8] = b"ALRMCALL";
const VERSION: u32 = 1;
/// Stands where a call's length would, and ends the list.
const END: u32 = u32::MAX;

/// A list of calls to a fresh register.
#[derive(Debug, PartialEq, Eq, Clone)]
pub struct List {
    /// The limits that the register is opened with.
    pub limits: Limits,
    /// The length of every call's answer slice; none: as long as any answer can be.
    pub answer: Option<u32>,
    /// The calls, in order.
    pub calls: Vec<Vec<u8>>,
}

/// Whether a register opens with these limits, or what is wrong with them.
pub fn opens_with(limits: Limits) -> Result<(), String> {
    // a slice without bytes is too short for any register, so that the limits alone are judged
    match Register::open(&mut [], limits) {
        Err(refusal @ Refusal::Limits) => Err(format!("no register opens with room for {limits}: {refusal}")),
        _ => Ok(()),
    }
}

/// The bytes of a file that were not read yet.
struct Unread<'a> {
    bytes: &'a [u8],
    at: usize,
}

impl<'a> Unread<'a> {
    fn take(&mut self, count: usize) -> Option<&'a [u8]> {
        let taken = self.bytes.get(self.at..self.at.checked_add(count)?)?;
        self.at += count;
        Some(taken)
    }

    fn number(&mut self) -> Option<u32> {
        self.take(4)?.try_into().ok().map(u32::from_be_bytes)
    }
}

impl List {
    /// The list of a file's bytes, or what is wrong with them.
    pub fn read(bytes: &[u8]) -> Result<List, String> {
        let mut file = Unread { bytes, at: 0 };
        let mut list = List::read_head(&mut file)?;
        loop {
            let place = list.calls.len() + 1;
            let at = file.at;
            match file.number() {
                None if at == bytes.len() => return Err(format!("cut off after call {}: the end mark is missing", place - 1)),
                None => return Err(format!("cut off inside the length of call {place} (byte {at})")),
                Some(END) => break,
                Some(length) => match file.take(length as usize) {
                    Some(call) => list.calls.push(call.to_vec()),
                    None => return Err(cut_in_call(place, file.at, length, bytes.len())),
                },
            }
        }
        list.read_end(&mut file)
    }

    fn read_head(file: &mut Unread<'_>) -> Result<List, String> {
        if file.bytes.is_empty() {
            return Err("the file is empty".to_string());
        }
        if file.take(MAGIC.len()) != Some(MAGIC) {
            return Err(not_a_list(file.bytes));
        }
        let cut = || "cut off inside its first 28 bytes".to_string();
        let version = file.number().ok_or_else(cut)?;
        if version != VERSION {
            return Err(format!("a list of version {version}; this program reads version {VERSION}"));
        }
        let mut number = || file.number().ok_or_else(cut);
        let limits = Limits { active: number()?, history: number()?, audit: number()? };
        opens_with(limits)?;
        let answer = Some(number()?).filter(|length| *length != 0);
        Ok(List { limits, answer, calls: Vec::new() })
    }

    fn read_end(self, file: &mut Unread<'_>) -> Result<List, String> {
        let Some(counted) = file.number() else {
            return Err(format!("cut off inside the end mark, after call {}", self.calls.len()));
        };
        if usize::try_from(counted) != Ok(self.calls.len()) {
            return Err(format!("the end mark counts {counted} calls, and the file holds {}", self.calls.len()));
        }
        match file.bytes.len() - file.at {
            0 => Ok(self),
            more => Err(format!("{more} bytes follow the end mark (byte {})", file.at)),
        }
    }

    /// The call with this number, from 1, or that there is none.
    pub fn call(&self, number: usize) -> Result<&[u8], String> {
        let call = number.checked_sub(1).and_then(|place| self.calls.get(place));
        call.map(Vec::as_slice).ok_or_else(|| format!("there is no call {number}: the list has {}", self.calls.len()))
    }

    /// The bytes of the list's file.
    pub fn write(&self) -> Vec<u8> {
        let mut bytes = MAGIC.to_vec();
        let mut number = |number: u32, rest: &[u8]| {
            bytes.extend(number.to_be_bytes());
            bytes.extend(rest);
        };
        for head in [VERSION, self.limits.active, self.limits.history, self.limits.audit, self.answer.unwrap_or(0)] {
            number(head, &[]);
        }
        for call in &self.calls {
            number(u32::try_from(call.len()).expect("a call is shorter than 4 GiB"), call);
        }
        number(END, &[]);
        number(u32::try_from(self.calls.len()).expect("a list has fewer than 2^32 calls"), &[]);
        bytes
    }
}

fn cut_in_call(place: usize, at: usize, length: u32, end: usize) -> String {
    format!("cut off inside call {place}: {length} bytes were to follow byte {at}, and {} do", end - at)
}

fn not_a_list(bytes: &[u8]) -> String {
    let start = "not a list of calls: it does not begin with ALRMCALL";
    let text = bytes.iter().take(200).all(|byte| matches!(byte, b'\t' | b'\n' | b'\r' | b' '..=b'~'));
    if text {
        format!("{start}; if it is the text form, make the list with `station write`")
    } else {
        start.to_string()
    }
}

#[cfg(test)]
mod tests {
    use super::List;
    use alarm_register::Limits;

    fn list() -> List {
        let limits = Limits { active: 2, history: 3, audit: 1 };
        List { limits, answer: Some(1552), calls: vec![vec![11], vec![], vec![8, 255]] }
    }

    #[test]
    fn a_list_comes_back() {
        assert_eq!(List::read(&list().write()), Ok(list()));
    }

    #[test]
    fn every_cut_and_every_addition_is_noticed() {
        let bytes = list().write();
        for length in 0..bytes.len() {
            assert!(List::read(&bytes[..length]).is_err(), "cut at {length}");
        }
        assert!(List::read(&[&bytes[..], &[0]].concat()).unwrap_err().contains("follow the end mark"));
    }

    #[test]
    fn a_lost_call_is_noticed() {
        let mut bytes = list().write();
        bytes.drain(28..33);
        assert_eq!(List::read(&bytes).unwrap_err(), "the end mark counts 3 calls, and the file holds 2");
    }
}
