//! What is wrong with a record's bytes, field by field.
use alarm_register::layout::{alarm, event, StringSlot};
use alarm_register::{Limits, Object, Raise, RaiseAnswer, Register, Severity, State, Time, ANSWER_ROOM, RECORD_WIDTH};
use std::fmt;
use std::ops::RangeInclusive;

/// The four chains, in the header's order.
#[derive(Clone, Copy, Debug, PartialEq, Eq)]
pub enum Chain {
    Active,
    History,
    Audit,
    Free,
}

impl Chain {
    pub const ALL: [Chain; 4] = [Chain::Active, Chain::History, Chain::Audit, Chain::Free];
}

impl fmt::Display for Chain {
    fn fmt(&self, f: &mut fmt::Formatter<'_>) -> fmt::Result {
        f.write_str(["active", "history", "audit", "free"][*self as usize])
    }
}

/// A byte of a record, and what is wrong there.
pub type Fault = (usize, String);

/// A record, those of its bytes that have no meaning, and the faults found so far.
struct Fields<'a> {
    record: &'a [u8],
    rest: Vec<u8>,
    faults: Vec<Fault>,
}

/// What is wrong with a record that lies on a chain.
pub fn faults(chain: Chain, record: &[u8]) -> Vec<Fault> {
    let mut fields = Fields { record, rest: record.to_vec(), faults: Vec::new() };
    fields.part(0, 4);
    match chain {
        Chain::Active => fields.alarm(0..=3),
        Chain::History => fields.alarm(0..=5),
        Chain::Audit => fields.event(),
        Chain::Free => {}
    }
    if let Some(at) = fields.rest.iter().position(|byte| *byte != 0) {
        let what = format!("a byte without meaning is {}, not zero", record[at]);
        fields.faults.push((at, what));
    }
    fields.faults
}

impl<'a> Fields<'a> {
    fn part(&mut self, at: usize, width: usize) -> &'a [u8] {
        self.rest[at..at + width].fill(0);
        &self.record[at..at + width]
    }

    fn byte(&mut self, name: &str, at: usize, values: RangeInclusive<u8>) -> u8 {
        let byte = self.part(at, 1)[0];
        if !values.contains(&byte) {
            self.faults.push((at, format!("{name} is {byte}, not {} to {}", values.start(), values.end())));
        }
        byte
    }

    /// The bytes of a string, where its length is legal.
    fn bytes(&mut self, slot: StringSlot) -> Option<&'a [u8]> {
        let length = usize::from(u16::from_be_bytes(self.part(slot.at, 2).try_into().unwrap_or_default()));
        if length > slot.longest {
            self.faults.push((slot.at, format!("the length of {} is {length}, above {}", slot.name, slot.longest)));
            self.part(slot.at + 2, slot.longest);
            return None;
        }
        Some(self.part(slot.at + 2, length))
    }

    fn string(&mut self, slot: StringSlot) -> Option<&'a str> {
        let bytes = self.bytes(slot)?;
        let read = std::str::from_utf8(bytes);
        if let Err(error) = read {
            self.faults.push((slot.at + 2 + error.valid_up_to(), format!("{} is not UTF-8", slot.name)));
        }
        read.ok()
    }

    fn present(&mut self, slot: StringSlot) -> bool {
        self.byte(&format!("the option byte of {}", slot.name), slot.at - 1, 0..=1) == 1
    }

    fn option(&mut self, slot: StringSlot) -> Option<&'a str> {
        if self.present(slot) {
            self.string(slot)
        } else {
            None
        }
    }

    fn cause(&mut self, slot: StringSlot) {
        if let Some(cause) = self.string(slot) {
            if !is_stored_cause(cause) {
                self.faults.push((slot.at + 2, "the cause is not one that a register stores".to_string()));
            }
        }
    }

    fn alarm(&mut self, states: RangeInclusive<u8>) {
        self.part(alarm::KEY, 16);
        self.byte("the severity", alarm::SEVERITY, 0..=5);
        let state = self.byte("the state", alarm::STATE, states);
        self.part(alarm::RAISED_AT, 8);
        self.part(alarm::UPDATED_AT, 8);
        if self.byte("the option byte of cleared_at", alarm::CLEARED_AT, 0..=1) == 1 {
            self.part(alarm::CLEARED_AT + 1, 8);
        }
        self.string(alarm::ID);
        self.string(alarm::TYPE);
        self.cause(alarm::CAUSE);
        self.object();
        self.option(alarm::TENANT);
        self.option(alarm::SLICE);
        if self.option(alarm::REGION) == Some("") {
            self.faults.push((alarm::REGION.at, "the region is present and empty".to_string()));
        }
        self.string(alarm::TEXT);
        if self.present(alarm::DETAILS) {
            self.bytes(alarm::DETAILS);
        }
        self.part(alarm::RAISES, 4);
        self.end(state);
    }

    fn end(&mut self, state: u8) {
        if self.byte("the option byte of end", alarm::END, 0..=1) == 1 {
            self.part(alarm::END + 1, 8);
            if state != State::Suppressed.byte() {
                let state = State::from_byte(state).map_or(state.to_string(), |state| state.to_string());
                self.faults.push((alarm::END, format!("an end is present in state {state}, and only suppressed has one")));
            }
        }
    }

    fn object(&mut self) {
        let kind = self.byte("the object's kind", alarm::OBJECT_KIND, 1..=8);
        let [first, second] = alarm::OBJECT;
        self.string(first);
        match kind {
            4 => {
                self.option(second);
            }
            1..=3 | 8 => {
                self.string(second);
            }
            _ => {}
        }
        if kind == 8 {
            self.part(alarm::QUEUE, 2);
        }
    }

    fn event(&mut self) {
        self.byte("the action", event::ACTION, 0..=1);
        self.byte("the outcome", event::OUTCOME, 0..=1);
        self.part(event::OCCURRED_AT, 8);
        self.string(event::ID);
        self.string(event::TYPE);
        self.cause(event::CAUSE);
        self.string(event::PRINCIPAL);
        self.option(event::TENANT);
        self.string(event::REASON);
        if self.byte("the scope's kind", event::SCOPE_KIND, 0..=2) < 2 {
            self.string(event::SCOPE);
        }
        self.option(event::CORRELATION);
    }
}

/// Whether a register that is sent a cause stores it as it stands.
fn is_stored_cause(cause: &str) -> bool {
    let (mut bytes, mut answer) = ([0; 4 * RECORD_WIDTH], [0; ANSWER_ROOM]);
    let raise = Raise::new(Time(0), "", "", Severity::Minor, cause, Object::Tenant { tenant: "" });
    let opened = Register::open(&mut bytes, Limits { active: 1, history: 1, audit: 1 });
    let raised = opened.and_then(|mut register| register.perform(&raise, &mut answer));
    matches!(raised, Ok(RaiseAnswer::Raised(alarm)) if alarm.cause == cause)
}
