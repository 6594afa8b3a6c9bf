//! Lists of calls as files, for the driver of the register and for the oracle, and the clock that both are measured by.
//!
//! A file is a run of orders. Each is a letter and its fields; numbers are big-endian, of four bytes save where said.
//! - `o` open: A, H, E, the register's length, and the byte that fills it before
//! - `s` step: the answer's length, the byte that fills it before, the call's length, the call
//! - `r` register: a length and the bytes that the register becomes
//! - `c` counters: where they lie in the register, successes and failures, eight bytes each
//! - `p` panel: a byte 0 for a look or 1 for a write; the place and the byte that is written; a byte 1 if the block is as
//!   the panel order before left it, else 0; a length and the block's bytes, none of which counts in the first case
//! - `m` mark: a length and a name; the steps that follow are measured under it, those under an empty name are not
use std::time::Instant;

pub enum Order<'a> {
    Open { limits: [u32; 3], size: usize, former: u8 },
    Step { room: usize, former: u8, call: &'a [u8] },
    Register(&'a [u8]),
    Counters { at: usize, successes: u64, failures: u64 },
    Panel { written: Option<(u32, u8)>, block: Option<&'a [u8]> },
    Mark(&'a str),
}

struct Reader<'a>(&'a [u8]);

impl<'a> Reader<'a> {
    fn take(&mut self, n: usize) -> Option<&'a [u8]> {
        let (head, rest) = self.0.split_at_checked(n)?;
        self.0 = rest;
        Some(head)
    }
    fn byte(&mut self) -> Option<u8> {
        Some(self.take(1)?[0])
    }
    fn number(&mut self) -> Option<u32> {
        Some(u32::from_be_bytes(self.take(4)?.try_into().ok()?))
    }
    fn wide(&mut self) -> Option<u64> {
        Some(u64::from_be_bytes(self.take(8)?.try_into().ok()?))
    }
    fn size(&mut self) -> Option<usize> {
        Some(self.number()? as usize)
    }
    fn bytes(&mut self) -> Option<&'a [u8]> {
        let n = self.size()?;
        self.take(n)
    }
    fn panel(&mut self) -> Option<Order<'a>> {
        let (is_write, at, value, is_left) = (self.byte()? == 1, self.number()?, self.byte()?, self.byte()? == 1);
        let block = self.bytes()?;
        Some(Order::Panel { written: is_write.then_some((at, value)), block: (!is_left).then_some(block) })
    }
    fn order(&mut self) -> Option<Order<'a>> {
        Some(match self.byte()? {
            b'o' => Order::Open {
                limits: [self.number()?, self.number()?, self.number()?],
                size: self.size()?,
                former: self.byte()?,
            },
            b's' => Order::Step { room: self.size()?, former: self.byte()?, call: self.bytes()? },
            b'r' => Order::Register(self.bytes()?),
            b'c' => Order::Counters { at: self.size()?, successes: self.wide()?, failures: self.wide()? },
            b'p' => self.panel()?,
            b'm' => Order::Mark(std::str::from_utf8(self.bytes()?).ok()?),
            _ => return None,
        })
    }
}

/// The orders of a file; none if it is damaged.
pub fn orders(file: &[u8]) -> Option<Vec<Order<'_>>> {
    let (mut reader, mut found) = (Reader(file), Vec::new());
    while !reader.0.is_empty() {
        found.push(reader.order()?);
    }
    Some(found)
}

/// What is measured: a register, or the Rust in its place. Both give the refusal's number, 0 for none.
pub trait Station {
    fn open(&mut self, limits: [u32; 3], size: usize) -> u32;
    fn give(&mut self, register: &[u8]);
    fn step(&mut self, call: &[u8], room: usize) -> u32;
}

/// Steps the orders and prints, for each name, the nanoseconds of the steps that were measured under it. Only empty calls
/// may be refused.
pub fn measure(orders: &[Order], station: &mut dyn Station) {
    let mut groups: Vec<(&str, Vec<u128>)> = Vec::new();
    for order in orders {
        match order {
            Order::Open { limits, size, .. } => assert_eq!(station.open(*limits, *size), 0, "opening is refused"),
            Order::Step { room, call, .. } => {
                let start = Instant::now();
                let number = station.step(call, *room);
                let spent = start.elapsed().as_nanos();
                assert!(number == 0 || call.is_empty(), "a call is refused with {number}");
                if let Some((_, times)) = groups.last_mut() {
                    times.push(spent);
                }
            }
            Order::Mark(name) => groups.push((name, Vec::new())),
            Order::Register(bytes) => station.give(bytes),
            Order::Counters { .. } => panic!("a list that is measured sets no counters"),
            Order::Panel { .. } => panic!("a list that is measured has no panel calls"),
        }
    }
    for (name, times) in groups.iter().filter(|(name, _)| !name.is_empty()) {
        let times: Vec<String> = times.iter().map(u128::to_string).collect();
        println!("{name}\t{}", times.join(" "));
    }
}
