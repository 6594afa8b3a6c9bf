//! The balance of the raw calls and of a report: raised = active at end + cleared + expired.
use crate::failure::damaged;
use crate::figures::Figure;
use crate::ruled::{wrapped, PAGE_WIDTH};
use crate::table::json_string;
use crate::text::quoted_for_page;
use alarm_register::Balance;
use std::array;

/// The figures of a balance, by their names in a report.
const NAMES: [&str; 4] = ["raised", "active at end", "cleared", "expired"];
/// A number has no more digits, so that three of them add up in a u128.
const MOST_DIGITS: usize = 38;

/// A figure as it is given.
#[derive(Clone, Debug, PartialEq, Eq)]
enum Given {
    /// A number.
    Number(u128),
    /// What is no number that can be added up, and why.
    NoNumber(String, &'static str),
    /// Nothing, which is taken for 0.
    Zero,
    /// Nothing, and that is not to be taken for 0.
    LeftOut,
}

impl Given {
    fn read(value: &str) -> Given {
        let natural = !value.is_empty() && value.bytes().all(|byte| byte.is_ascii_digit());
        match value.parse() {
            Ok(number) if natural && value.len() <= MOST_DIGITS => Given::Number(number),
            _ if natural => Given::NoNumber(value.to_string(), "too long"),
            _ => Given::NoNumber(value.to_string(), "no natural number"),
        }
    }

    fn number(&self) -> Option<u128> {
        match self {
            Given::Number(number) => Some(*number),
            Given::Zero => Some(0),
            Given::NoNumber(..) | Given::LeftOut => None,
        }
    }

    fn said(&self) -> String {
        match self {
            Given::Number(number) => number.to_string(),
            Given::NoNumber(value, why) => format!("\"{}\" ({why})", quoted_for_page(value)),
            Given::Zero => "0 (left out)".to_string(),
            Given::LeftOut => "left out".to_string(),
        }
    }

    fn json(&self) -> String {
        match self {
            Given::Number(number) => number.to_string(),
            Given::NoNumber(value, _) => json_string(value),
            Given::Zero => "0".to_string(),
            Given::LeftOut => "null".to_string(),
        }
    }
}

/// The four figures of a balance, in the order of their names, and whose they are.
#[derive(Debug)]
pub struct FourFigures {
    whose: String,
    given: [Given; 4],
}

impl FourFigures {
    /// Those of the raw calls, from a fresh register to one with this active length.
    pub fn counted(sums: &Balance, active: u32) -> FourFigures {
        let given = [sums.raised, active.into(), sums.cleared, sums.expired].map(Given::Number);
        FourFigures { whose: "the raw calls".to_string(), given }
    }

    /// Those of a report. What it leaves out is 0, or not claimed where only a part is reported.
    pub fn reported(whose: String, report: &[Figure], partial: bool) -> FourFigures {
        let absent = if partial { Given::LeftOut } else { Given::Zero };
        let given = |name| report.iter().find(|(figure, _)| figure == name).map(|(_, value)| Given::read(value));
        FourFigures { whose, given: NAMES.map(|name| given(name).unwrap_or(absent.clone())) }
    }

    fn numbers(&self) -> Option<[u128; 4]> {
        let [raised, active, cleared, expired] = self.given.each_ref().map(Given::number);
        Some([raised?, active?, cleared?, expired?])
    }

    /// Whether they balance; `None` where not all of them are given.
    fn holds(&self) -> Option<bool> {
        match self.numbers() {
            Some([raised, active, cleared, expired]) => Some(Balance { raised, cleared, expired }.holds(0, active)),
            None if self.given.contains(&Given::LeftOut) => None,
            None => Some(false),
        }
    }

    fn broken(&self) -> bool {
        self.holds() == Some(false)
    }

    /// All four, and the sum where it is another.
    fn said(&self) -> String {
        let named: [String; 4] = array::from_fn(|place| format!("{} {}", NAMES[place], self.given[place].said()));
        let [raised, parts @ ..] = &named;
        let sum = self.numbers().map(|[_, active, cleared, expired]| active + cleared + expired);
        match (self.holds(), sum) {
            (Some(true), _) => format!("{raised} = {}", parts.join(" + ")),
            (_, Some(sum)) => format!("{raised}, but {} = {sum}", parts.join(" + ")),
            (_, None) => named.join(", "),
        }
    }

    /// As a page shows them: on a line of their own, if that is not wider than the page.
    fn line(&self) -> String {
        let head = match self.holds() {
            Some(true) => format!("Balance of {}:", self.whose),
            Some(false) => format!("NO BALANCE in {}:", self.whose),
            None => format!("Balance of {}, not claimed:", self.whose),
        };
        let said = self.said() + ".";
        if head.chars().count() + 1 + said.chars().count() <= PAGE_WIDTH {
            return format!("{head} {said}\n");
        }
        let lines = [head, said].map(|part| wrapped(&part, PAGE_WIDTH).join("\n"));
        lines.join("\n") + "\n"
    }

    fn json(&self) -> String {
        let named = NAMES.iter().zip(&self.given);
        let figures = named.map(|(name, given)| format!("{}: {}, ", json_string(&name.replace(' ', "_")), given.json()));
        let holds = self.holds().map_or("null".to_string(), |holds| holds.to_string());
        format!("{{{}\"holds\": {holds}}}", figures.collect::<String>())
    }
}

/// The balance of the raw calls, and of the report that is recounted, if one is.
pub struct Balances {
    /// Of the raw calls.
    pub raw_calls: FourFigures,
    /// Of the report.
    pub report: Option<FourFigures>,
}

impl Balances {
    /// The last lines of a page.
    pub fn lines(&self) -> String {
        [&self.raw_calls].into_iter().chain(&self.report).map(FourFigures::line).collect()
    }

    /// An object for scripts.
    pub fn json(&self) -> String {
        let report = self.report.iter().map(|report| format!(",\n    \"report\": {}", report.json()));
        format!("{{\n    \"raw_calls\": {}{}\n  }}", self.raw_calls.json(), report.collect::<String>())
    }

    /// What is to be said aloud where one does not hold.
    pub fn fault(&self) -> Option<String> {
        if self.raw_calls.broken() {
            return Some(format!("the raw calls do not balance: {}; {}", self.raw_calls.said(), damaged("to balance")));
        }
        let report = self.report.as_ref().filter(|report| report.broken())?;
        Some(format!("{} does not balance: {}", report.whose, report.said()))
    }
}

#[cfg(test)]
mod tests {
    use super::{Balances, FourFigures};
    use alarm_register::Balance;

    const SUMS: Balance = Balance { raised: 11, cleared: 7, expired: 0 };

    /// The balance of raw calls that balance, beside a report with these values.
    fn beside(values: [&str; 4], partial: bool) -> Balances {
        let named = super::NAMES.iter().zip(values).filter(|(_, value)| *value != "left out");
        let report: Vec<_> = named.map(|(name, value)| (name.to_string(), value.to_string())).collect();
        let report = Some(FourFigures::reported("r.csv".to_string(), &report, partial));
        Balances { raw_calls: FourFigures::counted(&SUMS, 4), report }
    }

    fn last_line(balances: &Balances) -> String {
        balances.lines().lines().last().unwrap_or_default().to_string()
    }

    #[test]
    fn raw_calls_that_do_not_balance_are_told_before_any_report() {
        let balanced = Balances { raw_calls: FourFigures::counted(&SUMS, 4), report: None };
        assert_eq!(balanced.lines(), "Balance of the raw calls: raised 11 = active at end 4 + cleared 7 + expired 0.\n");
        assert_eq!(balanced.fault(), None);
        let sums = [Balance { raised: 12, ..SUMS }, Balance { cleared: 6, ..SUMS }, Balance { expired: 1, ..SUMS }];
        let broken = sums.map(|sums| FourFigures::counted(&sums, 4)).into_iter().chain([FourFigures::counted(&SUMS, 3)]);
        for raw_calls in broken {
            let balances = Balances { raw_calls, ..beside(["12", "4", "7", "0"], false) };
            let fault = balances.fault().unwrap();
            assert!(fault.starts_with("the raw calls do not balance: raised 1"), "{fault}");
            assert!(fault.ends_with("use no figure of this run"), "{fault}");
            assert!(balances.lines().starts_with("NO BALANCE in the raw calls: raised 1"), "{}", balances.lines());
            assert!(balances.json().contains("\"holds\": false},\n    \"report\""), "{}", balances.json());
        }
    }

    #[test]
    fn reports_balance_or_the_sum_is_told() {
        let equal = beside(["11", "4", "7", "left out"], false);
        assert_eq!(last_line(&equal), "Balance of r.csv: raised 11 = active at end 4 + cleared 7 + expired 0 (left out).");
        assert_eq!(equal.fault(), None);
        let broken = beside(["12", "4", "007", "0"], false);
        assert_eq!(last_line(&broken), "NO BALANCE in r.csv: raised 12, but active at end 4 + cleared 7 + expired 0 = 11.");
        let said = "r.csv does not balance: raised 12, but active at end 4 + cleared 7 + expired 0 = 11";
        assert_eq!(broken.fault().as_deref(), Some(said));
    }

    #[test]
    fn what_part_of_a_report_leaves_out_is_not_claimed() {
        let part = beside(["left out", "4", "left out", "left out"], true);
        let line = "Balance of r.csv, not claimed: raised left out, active at end 4, cleared left out, expired left out.";
        assert_eq!(part.lines().lines().skip(1).collect::<Vec<_>>().join(" "), line);
        assert_eq!(part.fault(), None);
        assert!(part.json().ends_with(
            "\"report\": {\"raised\": null, \"active_at_end\": 4, \"cleared\": null, \"expired\": null, \"holds\": null}\n  }"
        ));
    }

    #[test]
    fn what_is_no_number_does_not_balance() {
        let many = beside(["many", "4", "7", "0"], true);
        let line = "NO BALANCE in r.csv: raised \"many\" (no natural number), active at end 4, cleared 7, expired 0.";
        assert_eq!(last_line(&many), line);
        assert!(many.json().contains("{\"raised\": \"many\", \"active_at_end\": 4,"), "{}", many.json());
        for junk in ["", "-1", "+11", "1.5", "11 000", "\u{663}", "0x0b"] {
            let fault = beside([junk, "4", "7", "0"], false).fault().unwrap();
            assert!(fault.contains(&format!("raised \"{junk}\" (no natural number), active")), "{fault}");
        }
        let steering = beside(["11", "4", "\u{1b}[31m7", "0"], false);
        assert!(!steering.lines().contains('\u{1b}') && !steering.fault().unwrap().contains('\u{1b}'));
    }

    #[test]
    fn numbers_of_any_length_are_compared_or_told() {
        let nines = "9".repeat(38);
        let most = beside([&nines, &nines, &nines, &nines], false);
        assert!(most.fault().unwrap().ends_with(&format!("= 2{}7", "9".repeat(37))), "{:?}", most.fault());
        assert_eq!(beside([&nines, &nines, "0", "0"], false).fault(), None);
        let longer = format!("1{nines}");
        assert!(beside([&longer, &longer, "0", "0"], false).fault().unwrap().contains("99\" (too long), active"));
        assert!(most.lines().lines().all(|line| line.len() <= super::PAGE_WIDTH), "{}", most.lines());
    }
}
