//! Lists of calls, run from a fresh register.
use crate::list::List;
use crate::progress::Progress;
use alarm_register::{AuditEvents, Balance, CallBytes, Head, Operation, Refusal, Register, TakeAudit};
use std::collections::BTreeMap;

/// A register of its own, with room for every answer.
pub struct Machine {
    register: Vec<u8>,
    answer: Vec<u8>,
}

impl Machine {
    /// A fresh register for a list.
    pub fn fresh(list: &List) -> Result<Machine, String> {
        let limits = list.limits;
        let mut register = vec![0; limits.register_length()];
        Register::open(&mut register, limits).map_err(|refusal| format!("the register cannot be opened: {refusal}"))?;
        // a longer slice than any answer fills makes no difference
        let room = limits.answer_room();
        let length = list.answer.and_then(|length| usize::try_from(length).ok()).map_or(room, |length| length.min(room));
        Ok(Machine { register, answer: vec![0; length] })
    }

    /// The register's bytes.
    pub fn register(&self) -> &[u8] {
        &self.register
    }

    /// How many alarms are active.
    pub fn active_length(&mut self) -> u32 {
        Register::over(&mut self.register).active_length().unwrap_or_default()
    }

    /// The answer to an operation, on a copy of the register: what the list's calls find is not changed by looking.
    pub fn look(&self, call: &CallBytes) -> Result<Vec<u8>, Refusal> {
        let mut copy = self.register.clone();
        let mut register = Register::over(&mut copy);
        let mut answer = vec![0; register.limits().map_or(0, |limits| limits.answer_room())];
        register.step(call.as_bytes(), &mut answer).map(<[u8]>::to_vec)
    }
}

/// A call of one of two runs: what it got, and the register behind it.
pub struct Step<'a> {
    /// The call.
    pub call: &'a [u8],
    /// Its answer.
    pub got: Result<&'a [u8], Refusal>,
    /// The register's bytes.
    pub register: &'a [u8],
}

/// How often each cause was raised.
#[derive(Debug, Default, Clone, PartialEq, Eq)]
pub struct Raises {
    /// The cause.
    pub cause: String,
    /// Answers Raised: new alarms.
    pub alarms: u64,
    /// Answers Raised or Updated.
    pub raises: u64,
}

/// How often something was answered, and by which call first.
#[derive(Debug, Default, Clone, PartialEq, Eq)]
pub struct Often {
    /// How many calls.
    pub calls: u64,
    /// The place of the first of them, from 1.
    pub first: u64,
}

impl Often {
    fn add(&mut self, place: u64) {
        if self.calls == 0 {
            self.first = place;
        }
        self.calls += 1;
    }
}

/// What a list's answers add up to.
#[derive(Debug, Default, Clone, PartialEq, Eq)]
pub struct Tally {
    /// Calls.
    pub calls: u64,
    /// Refused calls, by number.
    pub refused: BTreeMap<u32, Often>,
    /// Answers, by code.
    pub codes: BTreeMap<u8, Often>,
    /// Alarms raised, cleared and expired by all calls together.
    pub balance: Balance,
    /// Suppressions that lift calls ended.
    pub lifted: u128,
    /// Raises by cause, in the order in which causes first appear.
    pub causes: Vec<Raises>,
    /// The records of audit events that calls took out, each with the place of its call.
    pub taken: Vec<(u64, Vec<u8>)>,
}

impl Tally {
    /// Adds a call and what it got.
    pub fn add(&mut self, call: &[u8], got: Result<&[u8], Refusal>) {
        self.calls += 1;
        match got {
            Err(refusal) => self.refused.entry(refusal.number()).or_default().add(self.calls),
            Ok(answer) => self.answered(call, answer),
        }
    }

    /// How many calls were answered with a code. Raised and cleared are the balance's own, so that figures and balance are one
    /// count.
    pub fn answers(&self, code: u8) -> u128 {
        match code {
            1 => self.balance.raised,
            3 => self.balance.cleared,
            code => self.codes.get(&code).map_or(0, |often| often.calls.into()),
        }
    }

    fn answered(&mut self, call: &[u8], answer: &[u8]) {
        let Some((head, body)) = Head::read(answer) else { return };
        self.codes.entry(head.code).or_default().add(self.calls);
        self.balance.add(call, answer);
        match call.first() {
            Some(1) if head.code <= 2 => self.raised(head.code == 1, body),
            Some(14) => self.lifted += u128::from(head.number),
            Some(12) => self.taken.extend(records(answer).map(|record| (self.calls, record.to_vec()))),
            _ => {}
        }
    }

    fn raised(&mut self, new: bool, record: &[u8]) {
        let Some(alarm) = alarm_register::Alarm::read(record) else { return };
        let known = self.causes.iter().position(|raises| raises.cause == alarm.cause);
        let place = known.unwrap_or_else(|| {
            self.causes.push(Raises { cause: alarm.cause.to_string(), ..Raises::default() });
            self.causes.len() - 1
        });
        self.causes[place].raises += 1;
        self.causes[place].alarms += u64::from(new);
    }
}

/// The records of an answer that lists audit events.
fn records(answer: &[u8]) -> impl Iterator<Item = &[u8]> {
    let events: Option<AuditEvents<'_>> = TakeAudit::read_answer(answer);
    let count = events.map_or(0, |events| events.len());
    answer[alarm_register::HEAD_WIDTH..].chunks(alarm_register::RECORD_WIDTH).take(count)
}

/// A list's register, and what its answers add up to.
pub type Run = (Machine, Tally);

/// Runs a whole list; gives the register at its end, and what the answers add up to.
pub fn run(list: &List) -> Result<Run, String> {
    let mut run = (Machine::fresh(list)?, Tally::default());
    let mut progress = Progress::new(list.calls.len());
    for (place, call) in list.calls.iter().enumerate() {
        progress.done(place);
        step(&mut run, call);
    }
    Ok(run)
}

/// Runs two lists of as many calls side by side. After each call `see` gets its number, from 1, and what it did in both runs.
pub fn run_both([list, other]: [&List; 2], mut see: impl FnMut(usize, [Step<'_>; 2])) -> Result<[Run; 2], String> {
    let mut first = (Machine::fresh(list)?, Tally::default());
    let mut second = (Machine::fresh(other)?, Tally::default());
    let mut progress = Progress::new(list.calls.len());
    for (place, (call, other_call)) in list.calls.iter().zip(&other.calls).enumerate() {
        progress.done(place);
        see(place + 1, [step(&mut first, call), step(&mut second, other_call)]);
    }
    Ok([first, second])
}

/// Performs a call of a run.
fn step<'a>((machine, tally): &'a mut Run, call: &'a [u8]) -> Step<'a> {
    let got = Register::over(&mut machine.register).step(call, &mut machine.answer);
    tally.add(call, got);
    Step { call, got, register: &machine.register }
}
