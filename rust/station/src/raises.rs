//! How often the alarms of an active list were raised, by their records.
use alarm_register::{ListActive, Operation, Severity};
use std::collections::HashMap;

/// The raises folded into the alarms of an active list.
#[derive(Debug, Default, PartialEq, Eq)]
pub struct ActiveRaises<'a> {
    /// Of all alarms, added up.
    pub sum: u64,
    /// The most of one alarm; 0 where there is none.
    pub most: u32,
    /// Added up by severity and cause.
    by_pair: HashMap<(Severity, &'a str), u64>,
}

impl<'a> ActiveRaises<'a> {
    /// Those of the answer to an active list, operation 8.
    pub fn of(active: &'a [u8]) -> ActiveRaises<'a> {
        let mut raises = ActiveRaises::default();
        for alarm in ListActive::read_answer(active).into_iter().flatten() {
            raises.sum += u64::from(alarm.raises);
            raises.most = raises.most.max(alarm.raises);
            *raises.by_pair.entry((alarm.severity, alarm.cause)).or_default() += u64::from(alarm.raises);
        }
        raises
    }

    /// Those of a severity and a cause.
    pub fn of_pair(&self, severity: Severity, cause: &str) -> u64 {
        self.by_pair.get(&(severity, cause)).copied().unwrap_or_default()
    }
}

#[cfg(test)]
mod tests {
    use super::ActiveRaises;
    use alarm_register::layout::alarm::RAISES;
    use alarm_register::{Limits, ListActive, Object, Operation, Raise, Register, Severity, Time, HEAD_WIDTH, RECORD_WIDTH};

    /// An active list of these alarms, by severity and cause.
    fn listed(alarms: &[(Severity, &str)]) -> Vec<u8> {
        let limits = Limits { active: 5, history: 1, audit: 1 };
        let (mut bytes, mut answer) = (vec![0; limits.register_length()], vec![0; limits.answer_room()]);
        let mut register = Register::open(&mut bytes, limits).unwrap();
        for (place, (severity, cause)) in alarms.iter().enumerate() {
            let id = place.to_string();
            register
                .perform(&Raise::new(Time(0), &id, &id, *severity, cause, Object::Tenant { tenant: "a" }), &mut answer)
                .unwrap();
        }
        register.step(ListActive { severity: None }.call().as_bytes(), &mut answer).unwrap().to_vec()
    }

    #[test]
    fn raises_are_added_up_by_severity_and_cause_and_never_wrap() {
        let (minor, major) = (Severity::Minor, Severity::Major);
        let mut list = listed(&[(minor, "other:a.b"), (major, "other:a.b"), (minor, "other:a.b"), (minor, "other:a.c")]);
        for (place, raises) in [u32::MAX, 7, u32::MAX, 0].into_iter().enumerate() {
            let at = HEAD_WIDTH + place * RECORD_WIDTH + RAISES;
            list[at..at + 4].copy_from_slice(&raises.to_be_bytes());
        }
        let (raises, twice) = (ActiveRaises::of(&list), 2 * u64::from(u32::MAX));
        assert_eq!((raises.sum, raises.most), (twice + 7, u32::MAX));
        let pairs = [(minor, "other:a.b", twice), (major, "other:a.b", 7), (minor, "other:a.c", 0), (major, "other:a.c", 0)];
        for (severity, cause, sum) in pairs {
            assert_eq!(raises.of_pair(severity, cause), sum, "{severity} {cause}");
        }
    }

    #[test]
    fn no_alarm_has_no_raises() {
        assert_eq!(ActiveRaises::of(&listed(&[])), ActiveRaises::default());
    }
}
