//! `station reach`: how far one wrong severity reaches into the figures of a list.
use crate::beside::{self, Row};
use crate::bounds::{Bounds, Differing};
use crate::change::Change;
use crate::failure::{named, Failure, FINE, FOUND};
use crate::figures::{self, Figure};
use crate::files;
use crate::options::{usage, Form, Options};
use crate::replay::{self, Run};
use crate::ruled::{wrapped, PAGE_WIDTH};
use crate::table::{column, json_object, json_string, numbers, Cell, Table};

pub const HELP: &str = "\
station reach LIST --at N --severity SEVERITY [--zone ZONE] [--json | --csv]

Shows how far one wrong severity reaches. Runs the calls of LIST (a .calls file,
or - for standard input) from a fresh register, once as listed and once with
another severity in call N, which is a raise; no other byte is changed. The figures
of both runs stand side by side: those of `station recount`, and how many alarms of
each severity are active at the end.

  --at N                the number of the raise: calls are counted from 1, refused
                        ones too. `station read LIST --numbers` shows the numbers
  --severity SEVERITY   cleared, indeterminate, warning, minor, major or critical
  --zone ZONE           the raise is shown with the time of clocks so far ahead of
                        UTC, as +01:00; without it, in UTC
  --json, --csv         the result for scripts; CSV has the figures alone

Bounds are proved for every list of calls, as long as no policy call behind call N
is answered (theorem reach). After each call as many alarms are active in both
runs; of the severity that call N has in a run, that run may have one active alarm
more; of every other severity both have as many. Calls by their answer (raised,
updated, cleared and so on) and expired and lifted alarms are equal: raise, clear,
acknowledge, suppress, expire, lift and summary are refused alike in both runs, or
answered with the same code and number.

From the first policy call behind call N (acknowledge-with-policy,
suppress-with-policy or suppress-until) that is answered nothing is bounded, since
a critical severity may stop a suppression. Policy calls that are refused do no
harm, nor do those before call N.

Of figures without a bound nothing is claimed: where one is equal in this list, it
may differ in others. History is among them: whether a change gets an entry of its
own there or overwrites the newest one depends on the severity of both.

Exit status: 0 fine, whether figures differ or not, 1 a bound does not hold (the
library or this program is damaged), 2 the command line is not understood, 3 LIST
is not a list of calls, or its call N is not there, is no raise, has no legal
severity or has SEVERITY already, 4 a file cannot be read or written.
";

pub fn command(options: &Options) -> Result<u8, Failure> {
    let number = options.at.ok_or_else(|| usage("reach", "--at is needed, with the number of a raise"))?;
    let severity = options.severity.ok_or_else(|| usage("reach", "--severity is needed, with the severity to try"))?;
    let list = files::list(&options.file)?;
    let input = |fault: String| Failure::input(&options.file, fault);
    let change = Change::of(&list, number, severity, options.zone).map_err(input)?;
    let raise = format!("Call {number} of {}: {}", named(&options.file), change.told(&list, options.zone));
    let changed = change.made(&list);
    let mut bounds = Bounds::of(change);
    let runs = replay::run_both([&list, &changed], |number, steps| bounds.see(number, &steps)).map_err(input)?;
    let rows = rows(&bounds, &runs).map_err(input)?;
    bounds.see_rows(&rows);
    let shown = Shown { raise, calls: list.calls.len(), table: table(&rows, &bounds), bounds };
    files::show(&shown.form(options.form), shown.bounds.fault().as_deref(), shown.status())
}

/// What is shown.
struct Shown {
    /// The raise, for people.
    raise: String,
    /// How many calls the list has.
    calls: usize,
    /// The figures.
    table: Table,
    bounds: Bounds,
}

impl Shown {
    fn form(&self, form: Form) -> String {
        match form {
            Form::Page => {
                let (raise, sentences) = (wrapped(&self.raise, PAGE_WIDTH).join("\n"), sentences(&self.bounds, self.calls));
                format!("{raise}\n\n{}\n{}", self.table.ruled(), lines(&sentences))
            }
            Form::Csv => self.table.csv(),
            Form::Json => json(&self.bounds, &self.table),
        }
    }

    fn status(&self) -> u8 {
        if self.bounds.broken().is_none() {
            FINE
        } else {
            FOUND
        }
    }
}

/// The figures of both runs, those of which the theorem speaks first: of the active chain, and by answers.
fn rows(bounds: &Bounds, runs: &[Run; 2]) -> Result<Vec<Row>, String> {
    let counted = |place: usize| -> Result<Vec<Figure>, String> {
        let (machine, tally) = &runs[place];
        let others = figures::of(machine, tally).map_err(|refusal| refusal.to_string())?;
        let own: Vec<Figure> = bounds.figures().iter().map(|figure| (figure.name(), figure.values[place].to_string())).collect();
        let not_own = others.into_iter().filter(|(name, _)| own.iter().all(|(known, _)| known != name));
        let (by_answer, rest): (Vec<Figure>, Vec<Figure>) = not_own.partition(|(name, _)| figures::is_by_answer(name));
        Ok([own, by_answer, rest].concat())
    };
    let (listed, changed) = (counted(0)?, counted(1)?);
    Ok(beside::rows(beside::merged(&listed, &changed), &listed, &changed))
}

fn table(rows: &[Row], bounds: &Bounds) -> Table {
    let cells = |row: &Row| {
        let bound = bounds.bound(&row.name);
        let (listed, changed) = (Cell::of(&row.first), Cell::of(row.second_or_absent()));
        vec![Cell::of(&row.name), listed, changed, Cell::maybe(row.difference()), Cell::maybe(bound)]
    };
    Table {
        name: "figures",
        title: "FIGURES AS LISTED AND AS CHANGED".to_string(),
        columns: vec![column("figure"), numbers("as_listed"), numbers("as_changed"), numbers("difference"), column("bound")],
        rows: rows.iter().map(cells).collect(),
    }
}

/// What a page says below its figures.
fn sentences(bounds: &Bounds, calls: usize) -> Vec<String> {
    let Change { number, listed, changed, .. } = &bounds.change;
    let bound = format!(
        "as many alarms are active in both runs, the counts of {listed} and {changed} differ by at most 1, those of every other \
         severity are equal, and raise, clear, acknowledge, suppress, expire, lift and summary are refused alike, or answered with \
         the same code and number. That is proved for every list of calls as long as no policy call behind the raise is answered \
         (theorem reach)"
    );
    let reach = match bounds.unbounded_from {
        None => format!("Bounded after every call: {bound}."),
        Some(policy) => format!(
            "From call {policy} on nothing is bounded: it is a policy call behind call {number}, and was answered; a critical \
             severity may stop a suppression. Bounded after every call before it: {bound}."
        ),
    };
    let mut said = vec![
        format!("As listed, call {number} has severity {listed}; as changed, {changed}."),
        format!("The active counts by severity differ {}.", when(bounds.differing, calls)),
        reach,
        "Of a figure without a bound nothing is claimed: where it is equal in this list, it may differ in others.".to_string(),
    ];
    said.extend(bounds.broken().map(|broken| format!("A BOUND DOES NOT HOLD: {broken}.")));
    said
}

/// After which of so many calls the active counts differ.
fn when(differing: Option<Differing>, calls: usize) -> String {
    match differing {
        None => "after no call".to_string(),
        Some(Differing { calls: 1, first, .. }) => format!("after call {first} alone"),
        Some(Differing { calls: some, first, last }) => {
            format!("after {some} of {calls} calls: first after call {first}, last after call {last}")
        }
    }
}

/// Sentences, each from the start of a line and no line wider than the page.
fn lines(sentences: &[String]) -> String {
    sentences.iter().flat_map(|sentence| wrapped(sentence, PAGE_WIDTH)).map(|line| line + "\n").collect()
}

fn json(bounds: &Bounds, table: &Table) -> String {
    let number = |number: Option<usize>| number.map_or("null".to_string(), |number| number.to_string());
    json_object(&[
        ("call", bounds.change.number.to_string()),
        ("severity_as_listed", json_string(bounds.change.listed.name())),
        ("severity_as_changed", json_string(bounds.change.changed.name())),
        ("first_differing_call", number(bounds.differing.map(|differing| differing.first))),
        ("last_differing_call", number(bounds.differing.map(|differing| differing.last))),
        ("differing_calls", bounds.differing.map_or(0, |differing| differing.calls).to_string()),
        ("unbounded_from_call", number(bounds.unbounded_from)),
        ("bounds_hold", bounds.broken().is_none().to_string()),
        ("figures", table.json()),
    ])
}

#[cfg(test)]
mod tests {
    use super::{rows, table, Bounds, Change, Form, Shown, FINE, FOUND};
    use crate::list::List;
    use crate::replay::{self, Step};
    use crate::text::Zone;
    use alarm_register::{Limits, Object, Operation, Raise, Severity, Time};

    fn list() -> List {
        let raise = Raise::new(Time(0), "a", "t", Severity::Minor, "lease-lost", Object::Tenant { tenant: "a" });
        let limits = Limits { active: 2, history: 3, audit: 1 };
        List { limits, answer: None, calls: vec![raise.call().as_bytes().to_vec()] }
    }

    /// What is shown of a list with one raise, where the second run's register is replaced by a made-up one.
    fn shown(made_up: Option<&[u8]>) -> Shown {
        let change = Change::of(&list(), 1, Severity::Major, Zone::default()).unwrap();
        let changed = change.made(&list());
        let mut bounds = Bounds::of(change);
        let see = |number: usize, [step, other]: [Step<'_>; 2]| {
            bounds.see(number, &[step, Step { register: made_up.unwrap_or(other.register), ..other }]);
        };
        let runs = replay::run_both([&list(), &changed], see).unwrap();
        let table = table(&rows(&bounds, &runs).unwrap(), &bounds);
        Shown { raise: String::new(), calls: 1, table, bounds }
    }

    #[test]
    fn a_bound_that_holds_is_not_spoken_of() {
        let shown = shown(None);
        assert_eq!((shown.status(), shown.bounds.fault()), (FINE, None));
        assert!(!shown.form(Form::Page).contains("DOES NOT HOLD"));
        assert!(shown.form(Form::Json).contains("\"bounds_hold\": true,"));
    }

    #[test]
    fn a_bound_that_does_not_hold_is_told_in_every_form() {
        let empty = vec![0; list().limits.register_length()];
        let shown = shown(Some(&empty));
        assert_eq!(shown.status(), FOUND);
        let broken = "after call 1 active alarms are 1 as listed and 0 as changed (bound: equal)";
        assert!(shown.bounds.fault().unwrap().starts_with(&format!("a bound does not hold: {broken}; ")));
        assert!(shown.form(Form::Page).ends_with(&format!("\nA BOUND DOES NOT HOLD: {broken}.\n")));
        assert!(shown.form(Form::Json).contains("\"bounds_hold\": false,"));
        assert!(shown.form(Form::Csv).contains("\nactive at end,1,0,-1,equal\n"));
    }
}
