//! How many alarms are active in a register, by its bytes.
use crate::chain;
use alarm_register::layout::{alarm, header};
use alarm_register::Severity;

const SEVERITIES: usize = Severity::ALL.len();

/// How many alarms are active, in all and of each severity.
#[derive(Clone, Copy, Debug, Default, PartialEq, Eq)]
pub struct Active {
    /// In all.
    pub length: usize,
    /// Of each severity, by its byte.
    pub of_severity: [usize; SEVERITIES],
}

impl Active {
    /// Those of a sound register, read from its active chain: an operation that lists them would cost as much as a call. Of other
    /// bytes what can be read.
    pub fn of(register: &[u8]) -> Active {
        let [head, ..] = header::HEADS;
        let mut of_severity = [0; SEVERITIES];
        for record in chain::records(register, head) {
            let severity = register.get(record + alarm::SEVERITY).map(|byte| usize::from(*byte));
            severity.and_then(|severity| of_severity.get_mut(severity)).into_iter().for_each(|count| *count += 1);
        }
        Active { length: chain::length(register, head), of_severity }
    }
}

#[cfg(test)]
mod tests {
    use super::Active;
    use alarm_register::{Limits, Object, Operation, Raise, Register, Severity, Time, ANSWER_ROOM};

    fn raise(id: &str, severity: Severity) -> Vec<u8> {
        Raise::new(Time(0), id, "t", severity, "lease-lost", Object::Tenant { tenant: id }).call().as_bytes().to_vec()
    }

    #[test]
    fn active_counts_are_those_of_the_register() {
        let limits = Limits { active: 7, history: 3, audit: 1 };
        let (mut bytes, mut answer) = (vec![0; limits.register_length()], [0; ANSWER_ROOM]);
        let mut register = Register::open(&mut bytes, limits).unwrap();
        assert_eq!(Active::of(register.as_bytes()), Active::default());
        for (id, severity) in ["a", "b", "c", "d", "e", "f", "g", "a"].into_iter().zip([5, 4, 4, 3, 0, 1, 2, 3]) {
            register.step(&raise(id, Severity::from_byte(severity).unwrap()), &mut answer).unwrap();
        }
        assert_eq!(Active::of(register.as_bytes()), Active { length: 7, of_severity: [1, 1, 1, 2, 2, 0] });
    }
}
