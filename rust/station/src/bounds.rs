//! What is bounded while one severity differs between two runs (theorem `reach`), and what was seen of it.
use crate::active::Active;
use crate::beside::Row;
use crate::bound::{Bound, Bounded};
use crate::change::Change;
use crate::failure::damaged;
use crate::figures;
use crate::replay::Step;
use alarm_register::{Refusal, Severity, HEAD_WIDTH};

/// Whether a call returns and tells the same in both runs: one that lists nothing and asks no policy.
fn keeps_head(call: &[u8]) -> bool {
    matches!(call.first(), Some(1..=4 | 7 | 11 | 14))
}

/// What a call returned, and the head of its answer.
fn returned<'a>(step: &Step<'a>) -> Result<&'a [u8], Refusal> {
    step.got.map(|answer| &answer[..HEAD_WIDTH.min(answer.len())])
}

/// The calls after which active counts differ.
#[derive(Clone, Copy, Debug, PartialEq, Eq)]
pub struct Differing {
    /// How many there are.
    pub calls: usize,
    /// The number of the first.
    pub first: usize,
    /// The number of the last.
    pub last: usize,
}

/// What was seen after each call of the two runs.
#[derive(Debug)]
pub struct Bounds {
    /// What differs between the two lists.
    pub change: Change,
    at_end: [Active; 2],
    /// The calls after which active counts differ, if there is one.
    pub differing: Option<Differing>,
    /// The first answered policy call behind the raise: from there on nothing is bounded.
    pub unbounded_from: Option<usize>,
    /// The first bound that did not hold.
    broken: Option<String>,
}

impl Bounds {
    /// The bounds of a change, before the first call.
    pub fn of(change: Change) -> Bounds {
        Bounds { change, at_end: [Active::default(); 2], differing: None, unbounded_from: None, broken: None }
    }

    /// Looks at both runs after a call.
    pub fn see(&mut self, number: usize, steps: &[Step<'_>; 2]) {
        let answered_policy = |step: &Step<'_>| matches!(step.call.first(), Some(5 | 6 | 13)) && step.got.is_ok();
        if number > self.change.number && steps.iter().any(answered_policy) {
            self.unbounded_from.get_or_insert(number);
        }
        let [one, other] = steps;
        // up to the raise both runs are one
        let same_head = number < self.change.number || keeps_head(one.call);
        if self.unbounded_from.is_none() && same_head && returned(one) != returned(other) {
            let broken = || format!("call {number} returns another number or another head as changed (bound: equal)");
            self.broken.get_or_insert_with(broken);
        }
        self.add(number, steps.each_ref().map(|step| Active::of(step.register)));
    }

    fn add(&mut self, number: usize, active: [Active; 2]) {
        self.at_end = active;
        if active[0] == active[1] {
            return;
        }
        let earlier = self.differing.unwrap_or(Differing { calls: 0, first: number, last: number });
        self.differing = Some(Differing { calls: earlier.calls + 1, last: number, ..earlier });
        if self.unbounded_from.is_none() && self.broken.is_none() {
            let wrong = self.figures().into_iter().find(|figure| !figure.holds());
            self.broken = wrong.map(|figure| format!("after call {number} {}", figure.said()));
        }
    }

    /// The figures of the active chain, after the last call that was seen.
    pub fn figures(&self) -> Vec<Bounded> {
        let count = |severity: &Severity| {
            let bound = match severity {
                severity if *severity == self.change.listed => Bound::OneMoreAsListed,
                severity if *severity == self.change.changed => Bound::OneMoreAsChanged,
                _ => Bound::Equal,
            };
            let values = self.at_end.map(|active| active.of_severity[usize::from(severity.byte())]);
            Bounded { severity: Some(*severity), values, bound }
        };
        let length = Bounded { severity: None, values: self.at_end.map(|active| active.length), bound: Bound::Equal };
        std::iter::once(length).chain(Severity::ALL.iter().map(count)).collect()
    }

    /// The bound of a figure at the end of the list, if one is proved. Calls by their answer are counted by code, and expired and
    /// lifted alarms by number: up to the raise both runs are one; behind it operations 1 to 4, 7, 11 and 14 answer with the same
    /// head, and all others that are answered with code 11, which is counted of expiries and lifts alone.
    pub fn bound(&self, name: &str) -> Option<Bound> {
        if self.unbounded_from.is_some() {
            return None;
        }
        let active = self.figures().into_iter().find(|figure| figure.name() == name).map(|figure| figure.bound);
        active.or(figures::is_by_answer(name).then_some(Bound::Equal))
    }

    /// Looks at the figures as they are shown: those that are bounded to be equal are.
    pub fn see_rows(&mut self, rows: &[Row]) {
        let broken = rows.iter().find(|row| self.bound(&row.name) == Some(Bound::Equal) && !row.equal);
        let said = broken.map(|row| {
            format!("{} is {} as listed and {} as changed (bound: equal)", row.name, row.first, row.second_or_absent())
        });
        self.broken = self.broken.take().or(said);
    }

    /// The first bound that did not hold, and where.
    pub fn broken(&self) -> Option<&str> {
        self.broken.as_deref()
    }

    /// What is to be said aloud where a bound does not hold.
    pub fn fault(&self) -> Option<String> {
        let damaged = damaged("to keep it");
        self.broken().map(|broken| format!("a bound does not hold: {broken}; {damaged}"))
    }
}

#[cfg(test)]
mod tests {
    use super::{Bounds, Differing};
    use crate::active::Active;
    use crate::beside::Row;
    use crate::bound::Bound;
    use crate::change::Change;
    use crate::list::List;
    use crate::replay::Step;
    use crate::text::Zone;
    use alarm_register::{Limits, Object, Operation, Raise, Refusal, Severity, Time, RECORD_WIDTH};

    fn raise(id: &str, severity: Severity) -> Vec<u8> {
        Raise::new(Time(0), id, "t", severity, "lease-lost", Object::Tenant { tenant: id }).call().as_bytes().to_vec()
    }

    /// The bounds of a list whose second call is changed from minor to major.
    fn bounds() -> Bounds {
        let calls = vec![vec![11], raise("a", Severity::Minor)];
        let list = List { limits: Limits { active: 2, history: 3, audit: 1 }, answer: None, calls };
        Bounds::of(Change::of(&list, 2, Severity::Major, Zone::default()).unwrap())
    }

    fn active(length: usize, of_severity: [usize; 6]) -> Active {
        Active { length, of_severity }
    }

    const LISTED: Active = Active { length: 9, of_severity: [1, 1, 1, 3, 2, 1] };

    #[test]
    fn figures_within_their_bounds_are_no_fault() {
        for of_severity in [[1, 1, 1, 3, 2, 1], [1, 1, 1, 2, 3, 1], [1, 1, 1, 2, 2, 1], [1, 1, 1, 3, 3, 1]] {
            let mut bounds = bounds();
            bounds.add(3, [LISTED, active(9, of_severity)]);
            assert_eq!(bounds.fault(), None, "{of_severity:?}");
        }
    }

    #[test]
    fn each_figure_outside_its_bound_is_told_with_the_first_such_call() {
        let wrong = [
            (8, [1, 1, 1, 2, 2, 1], "active alarms are 9 as listed and 8 as changed (bound: equal)"),
            (9, [2, 1, 1, 2, 2, 1], "active cleared alarms are 1 as listed and 2 as changed (bound: equal)"),
            (9, [1, 0, 1, 3, 3, 1], "active indeterminate alarms are 1 as listed and 0 as changed (bound: equal)"),
            (9, [1, 1, 2, 2, 2, 1], "active warning alarms are 1 as listed and 2 as changed (bound: equal)"),
            (9, [1, 1, 1, 1, 4, 1], "active minor alarms are 3 as listed and 1 as changed (bound: at most 1 more as listed)"),
            (9, [1, 1, 1, 4, 2, 1], "active minor alarms are 3 as listed and 4 as changed (bound: at most 1 more as listed)"),
            (9, [1, 1, 1, 3, 4, 1], "active major alarms are 2 as listed and 4 as changed (bound: at most 1 more as changed)"),
            (9, [1, 1, 1, 3, 1, 1], "active major alarms are 2 as listed and 1 as changed (bound: at most 1 more as changed)"),
            (9, [1, 1, 1, 2, 2, 2], "active critical alarms are 1 as listed and 2 as changed (bound: equal)"),
        ];
        for (length, of_severity, said) in wrong {
            let mut bounds = bounds();
            bounds.add(7, [LISTED, active(length, of_severity)]);
            bounds.add(8, [LISTED, active(0, [0; 6])]);
            let then = "the register is proved to keep it, so its library or this program is damaged: use no figure of this run";
            assert_eq!(bounds.fault(), Some(format!("a bound does not hold: after call 7 {said}; {then}")));
        }
    }

    #[test]
    fn calls_after_which_counts_differ_are_counted() {
        let mut bounds = bounds();
        let other = active(9, [1, 1, 1, 2, 3, 1]);
        for (number, changed) in [(1, LISTED), (2, other), (3, LISTED), (4, other), (5, LISTED)] {
            bounds.add(number, [LISTED, changed]);
        }
        assert_eq!(bounds.differing, Some(Differing { calls: 2, first: 2, last: 4 }));
    }

    #[test]
    fn answered_policy_calls_behind_the_raise_end_the_bounds() {
        let empty = [0; RECORD_WIDTH];
        let both = |operation: &'static [u8], answered: bool| {
            let got = if answered { Ok(&[][..]) } else { Err(Refusal::CallLength) };
            [(); 2].map(|()| Step { call: operation, got, register: &empty })
        };
        let cases: [(usize, &[u8], bool, Option<usize>); 9] = [
            (3, &[5], true, Some(3)),
            (3, &[6], true, Some(3)),
            (3, &[13], true, Some(3)),
            (3, &[6], false, None),
            (3, &[13], false, None),
            (3, &[14], true, None),
            (3, &[4], true, None),
            (3, &[7], true, None),
            (1, &[6], true, None),
        ];
        for (number, operation, answered, from) in cases {
            let mut bounds = bounds();
            bounds.see(number, &both(operation, answered));
            bounds.see(9, &both(&[6], false));
            assert_eq!(bounds.unbounded_from, from, "call {number}, operation {operation:?}");
            bounds.add(10, [LISTED, active(0, [0; 6])]);
            assert_eq!(bounds.fault().is_none(), from.is_some());
        }
        let mut one_run = bounds();
        let ([refused, _], [_, answered]) = (both(&[6], false), both(&[6], true));
        one_run.see(4, &[refused, answered]);
        assert_eq!(one_run.unbounded_from, Some(4));
    }

    /// The fault of a call of an operation, number 3, that got one and the other.
    fn fault_of(operation: u8, [one, other]: [Result<&[u8], Refusal>; 2]) -> Option<String> {
        let (empty, call, mut bounds) = ([0; RECORD_WIDTH], [operation], bounds());
        bounds.see(3, &[one, other].map(|got| Step { call: &call, got, register: &empty }));
        bounds.fault()
    }

    #[test]
    fn numbers_and_heads_that_differ_are_told_of_calls_that_keep_them() {
        let (whole, mut code, mut number, mut body) = ([7; 20], [7; 20], [7; 20], [7; 20]);
        (code[0], number[15], body[16]) = (8, 8, 8);
        let refused = |refusal| -> Result<&[u8], Refusal> { Err(refusal) };
        let differing = [
            [Ok(&whole[..]), Ok(&code[..])],
            [Ok(&whole), Ok(&number)],
            [Ok(&whole), Ok(&whole[..15])],
            [Ok(&whole), refused(Refusal::AnswerLength)],
            [refused(Refusal::CallLength), refused(Refusal::AnswerLength)],
        ];
        for (operation, got) in (1..=14).flat_map(|operation| differing.map(|got| (operation, got))) {
            let kept = [1, 2, 3, 4, 7, 11, 14].contains(&operation);
            assert_eq!(fault_of(operation, got).is_some(), kept, "operation {operation}: {got:?}");
        }
        for same in [[Ok(&whole[..]), Ok(&body[..])], [refused(Refusal::AnswerLength); 2]] {
            assert_eq!(fault_of(1, same), None, "{same:?}");
        }
        let said = "a bound does not hold: call 3 returns another number or another head as changed (bound: equal); the register";
        assert!(fault_of(7, differing[0]).unwrap().starts_with(said));
    }

    #[test]
    fn up_to_the_raise_every_call_returns_the_same() {
        let empty = [0; RECORD_WIDTH];
        for (number, operation, broken) in [(1, 8, true), (1, 6, true), (1, 1, true), (2, 8, false), (3, 8, false)] {
            let (call, mut bounds) = ([operation], bounds());
            bounds.see(number, &[&[1; 16], &[2; 16]].map(|answer| Step { call: &call, got: Ok(answer), register: &empty }));
            assert_eq!(bounds.fault().is_some(), broken, "call {number}, operation {operation}");
        }
    }

    #[test]
    fn figures_that_are_shown_as_bounded_are_equal() {
        let row = |name: &str, second: &str| Row {
            name: name.to_string(),
            first: "1".to_string(),
            second: Some(second.to_string()),
            equal: second == "1",
        };
        for (name, second, broken) in [
            ("suppressed", "0", true),
            ("expired", "2", true),
            ("lifted", "2", true),
            ("suppressed", "1", false),
            ("refused", "2", false),
        ] {
            let mut bounds = bounds();
            bounds.see_rows(&[row("raised", "1"), row(name, second)]);
            let said =
                format!("a bound does not hold: {name} is 1 as listed and {second} as changed (bound: equal); the register");
            assert_eq!(bounds.fault().is_some_and(|fault| fault.starts_with(&said)), broken, "{name} {second}");
            bounds.unbounded_from = Some(3);
            bounds.broken = None;
            bounds.see_rows(&[row(name, second)]);
            assert_eq!(bounds.fault(), None);
        }
    }

    #[test]
    fn figures_have_their_bounds_until_a_policy_call_is_answered() {
        let mut bounds = bounds();
        let (equal, listed, changed) = (Some(Bound::Equal), Some(Bound::OneMoreAsListed), Some(Bound::OneMoreAsChanged));
        let figures = [("active at end", equal), ("active at end minor", listed), ("active at end major", changed)];
        let others = ["active at end critical", "raised", "expired", "lifted", "not found"].map(|name| (name, equal));
        let none = [
            "calls",
            "refused",
            "refused 30",
            "worst at end",
            "suppressed at end",
            "raises at end",
            "most raises at end",
            "history entries at end",
            "active at end minor lease-lost",
            "raises at end minor lease-lost",
            "raises lease-lost",
        ];
        for (name, bound) in figures.into_iter().chain(others).chain(none.map(|name| (name, None))) {
            assert_eq!(bounds.bound(name), bound, "{name}");
        }
        bounds.unbounded_from = Some(4);
        assert!(figures.iter().chain(&others).all(|(name, _)| bounds.bound(name).is_none()));
    }
}
