//! oracle run: reads a list of calls from the standard input and writes a line for each order but marks.
//! oracle time FILE: prints the nanoseconds of the marked steps of a list.
//! oracle whitespace: every character that Rust holds for white space.
mod call;
mod json;
mod machine;

use lists::{measure, orders, Order, Station};
use machine::Machine;
use opc_redaction::metrics::METRICS;
use std::hint::black_box;
use std::io::{Read, Write};
use std::sync::atomic::Ordering::Relaxed;

fn opened([a, h, e]: [u32; 3]) -> Option<Machine> {
    let legal = [a, h, e].iter().all(|n| (1..=65_535).contains(n));
    legal.then(|| Machine::new(a as usize, h as usize, e as usize))
}

fn run(file: &[u8]) {
    let mut out = std::io::BufWriter::new(std::io::stdout().lock());
    let mut machine = None;
    for order in orders(file).expect("the list is damaged") {
        let line = match order {
            Order::Mark(_) => continue,
            Order::Open { limits, .. } => {
                machine = opened(limits);
                if machine.is_some() { "opened".into() } else { "refused 20".into() }
            }
            Order::Step { call, room, .. } => {
                let machine: &mut Machine = machine.as_mut().expect("no register is open");
                match call::parse(call).and_then(|c| machine.step(c, room)) {
                    Err(number) => format!("refused {number}"),
                    Ok(answer) => format!("{{{},{}}}", json::answer(answer), json::state(machine)),
                }
            }
            Order::Counters { successes, failures, .. } => {
                METRICS.alarm_audit_success.store(successes, Relaxed);
                METRICS.alarm_audit_failure.store(failures, Relaxed);
                "counters".into()
            }
            // the Rust has no panel: what it holds after the last call stands for itself
            Order::Panel { .. } => "panel".into(),
            Order::Register(_) => panic!("the Rust keeps no register in bytes"),
        };
        writeln!(out, "{line}").expect("the output is closed");
    }
}

/// The Rust in the register's place: from a call's bytes to the Rust's own answer.
struct Original(Option<Machine>);

impl Station for Original {
    fn open(&mut self, limits: [u32; 3], _size: usize) -> u32 {
        self.0 = opened(limits);
        if let Some(machine) = &mut self.0 {
            machine.ids_are_fresh = true;
        }
        if self.0.is_some() { 0 } else { 20 }
    }
    fn give(&mut self, _register: &[u8]) {
        panic!("the Rust keeps no register in bytes");
    }
    fn step(&mut self, call: &[u8], room: usize) -> u32 {
        let machine = self.0.as_mut().expect("no register is open");
        match call::parse(call).and_then(|c| machine.step(c, room)) {
            Err(number) => number.into(),
            Ok(answer) => {
                black_box(answer);
                0
            }
        }
    }
}

fn main() {
    let words: Vec<String> = std::env::args().skip(1).collect();
    match words.iter().map(String::as_str).collect::<Vec<_>>()[..] {
        ["run"] => {
            let mut file = Vec::new();
            std::io::stdin().read_to_end(&mut file).expect("no input");
            run(&file);
        }
        ["time", path] => {
            let file = std::fs::read(path).expect("no such list");
            measure(&orders(&file).expect("the list is damaged"), &mut Original(None));
        }
        ["whitespace"] => {
            for c in ('\0'..=char::MAX).filter(|c| c.is_whitespace()) {
                println!("{:04X}", c as u32);
            }
        }
        _ => {
            eprintln!("oracle run | oracle time FILE | oracle whitespace");
            std::process::exit(2);
        }
    }
}
