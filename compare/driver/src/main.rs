//! driver run: reads a list of calls from the standard input, steps a register by it through the library's entry points,
//! and writes for each order but marks: the number (four bytes) and the length (eight); then the answer slice up to its
//! last byte that is not the one that filled it, or the whole panel block, behind its length; then how many stretches of
//! the register changed, each with its place, its length and its bytes. Numbers are big-endian, of four bytes save where
//! said.
//! driver time FILE: prints the nanoseconds of the marked steps of a list.
use lists::{measure, orders, Order, Station};
use std::io::{Read, Write};

extern "C" {
    fn alarm_open(reg: *mut u8, reg_len: usize, active: u32, history: u32, audit: u32, length: *mut u64) -> u32;
    fn alarm_step(
        reg: *mut u8,
        reg_len: usize,
        call: *const u8,
        call_len: usize,
        answer: *mut u8,
        answer_len: usize,
        length: *mut u64,
    ) -> u32;
    fn alarm_panel_look(reg: *const u8, reg_len: usize, block: *mut u8, block_len: usize, length: *mut u64) -> u32;
    fn alarm_panel_write(
        reg: *const u8,
        reg_len: usize,
        block: *mut u8,
        block_len: usize,
        at: u32,
        value: u8,
        length: *mut u64,
    ) -> u32;
}

/// Number and length. Lengths start as what no call returns, so that one that is not written is seen.
fn open(register: &mut [u8], [a, h, e]: [u32; 3]) -> (u32, u64) {
    let mut length = u64::MAX;
    let number = unsafe { alarm_open(register.as_mut_ptr(), register.len(), a, h, e, &mut length) };
    (number, length)
}

fn step(register: &mut [u8], call: &[u8], answer: &mut [u8]) -> (u32, u64) {
    let mut length = u64::MAX;
    let number = unsafe {
        alarm_step(
            register.as_mut_ptr(),
            register.len(),
            call.as_ptr(),
            call.len(),
            answer.as_mut_ptr(),
            answer.len(),
            &mut length,
        )
    };
    (number, length)
}

/// A look, or a write of a byte to a place. The register may be written here, so that a library that does so is seen.
fn panel(register: &mut [u8], block: &mut [u8], written: Option<(u32, u8)>) -> (u32, u64) {
    let mut length = u64::MAX;
    let (reg, reg_len) = (register.as_mut_ptr(), register.len());
    let (at, size) = (block.as_mut_ptr(), block.len());
    let number = unsafe {
        match written {
            None => alarm_panel_look(reg, reg_len, at, size, &mut length),
            Some((place, value)) => alarm_panel_write(reg, reg_len, at, size, place, value, &mut length),
        }
    };
    (number, length)
}

fn put(out: &mut Vec<u8>, n: usize) {
    out.extend((n as u32).to_be_bytes());
}

/// The stretches, in blocks of 64 bytes, in which two registers of one length differ.
fn put_changes(out: &mut Vec<u8>, before: &[u8], after: &[u8]) {
    const BLOCK: usize = 64;
    let mut runs: Vec<(usize, usize)> = Vec::new();
    for (i, (x, y)) in before.chunks(BLOCK).zip(after.chunks(BLOCK)).enumerate() {
        let at = i * BLOCK;
        match runs.last_mut() {
            _ if x == y => {}
            Some((_, end)) if *end == at => *end += y.len(),
            _ => runs.push((at, at + y.len())),
        }
    }
    put(out, runs.len());
    for (at, end) in runs {
        put(out, at);
        put(out, end - at);
        out.extend(&after[at..end]);
    }
}

fn run(file: &[u8]) {
    let mut out = std::io::BufWriter::new(std::io::stdout().lock());
    let (mut register, mut block) = (Vec::new(), Vec::new());
    for order in orders(file).expect("the list is damaged") {
        // of a block every byte is shown
        let (mut before, mut answer, mut former) = (register.clone(), Vec::new(), None);
        let (number, length) = match order {
            Order::Mark(_) => continue,
            Order::Open { limits, size, former } => {
                register = vec![former; size];
                before = register.clone();
                open(&mut register, limits)
            }
            Order::Step { room, former: byte, call } => {
                (answer, former) = (vec![byte; room], Some(byte));
                step(&mut register, call, &mut answer)
            }
            Order::Register(bytes) => {
                register = bytes.to_vec();
                before = bytes.to_vec();
                (0, 0)
            }
            Order::Counters { at, successes, failures } => {
                register[at..at + 8].copy_from_slice(&successes.to_be_bytes());
                register[at + 8..at + 16].copy_from_slice(&failures.to_be_bytes());
                (0, 0)
            }
            Order::Panel { written, block: given } => {
                block = given.map_or(block, <[u8]>::to_vec);
                let returned = panel(&mut register, &mut block, written);
                answer = block.clone();
                returned
            }
        };
        let shown = answer.iter().rposition(|&b| Some(b) != former).map_or(0, |last| last + 1);
        let mut result = number.to_be_bytes().to_vec();
        result.extend(length.to_be_bytes());
        put(&mut result, shown);
        result.extend(&answer[..shown]);
        put_changes(&mut result, &before, &register);
        out.write_all(&result).expect("the output is closed");
    }
}

/// A register, and an answer that has room for all of it: neither is cleared between calls.
struct Cabinet {
    register: Vec<u8>,
    answer: Vec<u8>,
}

impl Station for Cabinet {
    fn open(&mut self, limits: [u32; 3], size: usize) -> u32 {
        self.register = vec![0; size];
        self.answer = vec![0; size + 16];
        open(&mut self.register, limits).0
    }
    fn give(&mut self, register: &[u8]) {
        self.register = register.to_vec();
        self.answer = vec![0; register.len() + 16];
    }
    fn step(&mut self, call: &[u8], room: usize) -> u32 {
        step(&mut self.register, call, &mut self.answer[..room]).0
    }
}

fn main() {
    let words: Vec<String> = std::env::args().skip(1).collect();
    match words.iter().map(String::as_str).collect::<Vec<_>>()[..] {
        ["run"] => {
            let mut file = Vec::new();
            std::io::stdin().read_to_end(&mut file).expect("no input");
            run(&file);
        }
        ["time", path] => {
            let file = std::fs::read(path).expect("no such list");
            let mut cabinet = Cabinet { register: Vec::new(), answer: Vec::new() };
            measure(&orders(&file).expect("the list is damaged"), &mut cabinet);
        }
        _ => {
            eprintln!("driver run | driver time FILE");
            std::process::exit(2);
        }
    }
}
