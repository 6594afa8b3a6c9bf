//! By how much a figure may differ while one severity differs between two runs.
use alarm_register::Severity;
use std::fmt;

/// What the theorem says of a figure as listed and as changed.
#[derive(Clone, Copy, Debug, PartialEq, Eq)]
pub enum Bound {
    /// They are equal.
    Equal,
    /// There may be one more as listed.
    OneMoreAsListed,
    /// There may be one more as changed.
    OneMoreAsChanged,
}

impl Bound {
    fn admits(self, [listed, changed]: [usize; 2]) -> bool {
        match self {
            Bound::Equal => listed == changed,
            Bound::OneMoreAsListed => (changed..=changed + 1).contains(&listed),
            Bound::OneMoreAsChanged => (listed..=listed + 1).contains(&changed),
        }
    }
}

impl fmt::Display for Bound {
    fn fmt(&self, f: &mut fmt::Formatter<'_>) -> fmt::Result {
        f.write_str(match self {
            Bound::Equal => "equal",
            Bound::OneMoreAsListed | Bound::OneMoreAsChanged => "at most 1",
        })
    }
}

/// A figure of the active chain: its length, or the count of a severity.
#[derive(Debug)]
pub struct Bounded {
    /// The severity whose alarms are counted; none: all.
    pub severity: Option<Severity>,
    /// As listed, and as changed.
    pub values: [usize; 2],
    /// What the theorem gives.
    pub bound: Bound,
}

impl Bounded {
    /// The figure's name at the end of a list.
    pub fn name(&self) -> String {
        self.severity.map_or("active at end".to_string(), |severity| format!("active at end {severity}"))
    }

    /// Whether its values are within the bound.
    pub fn holds(&self) -> bool {
        self.bound.admits(self.values)
    }

    /// What is told of a figure that is not.
    pub fn said(&self) -> String {
        let [listed, changed] = self.values;
        let alarms = self.severity.map_or("alarms".to_string(), |severity| format!("{severity} alarms"));
        let bound = match self.bound {
            Bound::Equal => "equal",
            Bound::OneMoreAsListed => "at most 1 more as listed",
            Bound::OneMoreAsChanged => "at most 1 more as changed",
        };
        format!("active {alarms} are {listed} as listed and {changed} as changed (bound: {bound})")
    }
}
