//! `station recount`: a report's figures beside those of the raw calls.
use crate::balance::{Balances, FourFigures};
use crate::beside::{self, Row};
use crate::failure::{named, Failure, FINE, FOUND};
use crate::figures::{self, Figure};
use crate::files;
use crate::options::{usage, Form, Options};
use crate::replay;
use crate::table::{column, json_object, numbers, Cell, Table};

pub const HELP: &str = "\
station recount LIST [--against REPORT] [--partial] [--json | --csv]

Runs the calls of LIST (a .calls file, or - for standard input) from a fresh
register and counts. With --against the figures stand beside those of REPORT, and
each difference in its row. Without it they are printed alone; with --csv that is
a report as --against reads it.

REPORT is a CSV file. It begins with the line `figure,value` (a semicolon will do)
and has a figure on each line:

  calls                     all calls
  refused, refused NUMBER   refused calls, in all and by the refusal's number
  raised, updated, cleared, suppressed, acknowledged, unauthorized, not found,
  audit failed, clear without active, active limit exceeded
                            calls with this answer
  expired                   alarms that expire calls ended
  lifted                    suppressions that lift calls ended
  alarms CAUSE              new alarms of a cause
  raises CAUSE              raises of a cause, with those of an active alarm
  active at end, active at end SEVERITY CAUSE, suppressed at end,
  history entries at end, audit events held at end
                            what the register holds after the last call
  worst at end, readiness at end
                            of the active alarms that are then not suppressed
  raises at end, raises at end SEVERITY CAUSE, most raises at end
                            raises folded into the alarms that are then active:
                            added up, in all and by severity and cause, and the
                            most of one alarm
  audit events stored, audit events lost
                            the register's audit counters

A figure that REPORT leaves out counts as 0 (or none, or no impact): what is left
out shows as a difference where the raw calls say otherwise.

A page ends with the balance: raised = active at end + cleared + expired. That the
register keeps it is proved for every list of calls from a fresh register. With
--against the last line is the balance of REPORT; where it does not hold, standard
error says so too, in every form: a report that begins with alarms which are active
already does not balance. Numbers of up to 38 digits are balanced.

  --partial   figures that REPORT leaves out are not compared, and it balances or
              not only where it has all four of raised, active at end, cleared
              and expired
  --json      all figures and the balance as a JSON object
  --csv       all figures as CSV

Exit status: 0 equal, 1 at least one figure differs or a balance does not hold,
2 the command line is not understood, 3 LIST or REPORT is not in its form, 4 a file
cannot be read or written.
";

pub fn command(options: &Options) -> Result<u8, Failure> {
    let list = files::list(&options.file)?;
    let (mut machine, tally) = replay::run(&list).map_err(|fault| Failure::input(&options.file, fault))?;
    let counted = figures::of(&machine, &tally).map_err(|refusal| Failure::input(&options.file, refusal))?;
    let raw_calls = FourFigures::counted(&tally.balance, machine.active_length());
    let Some(against) = &options.against else {
        if options.partial {
            return Err(usage("recount", "--partial needs --against"));
        }
        return alone(&counted, &Balances { raw_calls, report: None }, options.form);
    };
    let reported = figures::report(&files::text(against)?, &counted).map_err(|fault| Failure::input(against, fault))?;
    let report = Some(FourFigures::reported(named(against), &reported, options.partial));
    let balances = Balances { raw_calls, report };
    let rows = compared(&counted, &reported, options.partial);
    let differing = rows.iter().filter(|row| !row.equal).count();
    let table = table(&named(against), &rows);
    let verdict = verdict(&named(against), rows.len(), differing);
    let shown = match options.form {
        Form::Page => format!("{}\n{verdict}\n{}", table.ruled(), balances.lines()),
        Form::Csv => table.csv(),
        Form::Json => json_object(&[
            ("equal", (differing == 0).to_string()),
            ("differing", differing.to_string()),
            ("figures", table.json()),
            ("balance", balances.json()),
        ]),
    };
    files::show(&shown, balances.fault().as_deref(), status(&balances, differing == 0))
}

fn alone(counted: &[Figure], balances: &Balances, form: Form) -> Result<u8, Failure> {
    let table = figures::table(counted);
    let shown = match form {
        Form::Page => format!("{}\n{}", table.ruled(), balances.lines()),
        Form::Csv => table.csv(),
        Form::Json => json_object(&[("figures", table.json()), ("balance", balances.json())]),
    };
    files::show(&shown, balances.fault().as_deref(), status(balances, true))
}

fn status(balances: &Balances, equal: bool) -> u8 {
    if equal && balances.fault().is_none() {
        FINE
    } else {
        FOUND
    }
}

/// The figures of the raw calls, then those of the report alone; of a part, only what it reports.
fn compared(counted: &[Figure], reported: &[Figure], partial: bool) -> Vec<Row> {
    let only_reported = reported.iter().filter(|(name, _)| !counted.iter().any(|(figure, _)| figure == name));
    let names = counted.iter().chain(only_reported).map(|(name, _)| name);
    beside::rows(names, counted, reported).into_iter().filter(|row| !partial || row.second.is_some()).collect()
}

fn table(against: &str, rows: &[Row]) -> Table {
    let cells = |row: &Row| {
        let reported = row.second.as_deref().unwrap_or("left out");
        vec![Cell::of(&row.name), Cell::of(&row.first), Cell::of(reported), Cell::maybe(row.difference())]
    };
    Table {
        name: "figures",
        title: format!("FIGURES OF THE RAW CALLS BESIDE {against}"),
        columns: vec![column("figure"), numbers("raw_calls"), numbers("report"), numbers("difference")],
        rows: rows.iter().map(cells).collect(),
    }
}

fn verdict(against: &str, figures: usize, differing: usize) -> String {
    match differing {
        0 => format!("Equal: the {figures} figures of {against} are those of the raw calls."),
        1 => format!("1 of {figures} figures differs from the raw calls."),
        _ => format!("{differing} of {figures} figures differ from the raw calls."),
    }
}

#[cfg(test)]
mod tests {
    use super::{status, Balances, FourFigures, FINE, FOUND};
    use alarm_register::Balance;

    #[test]
    fn raw_calls_that_do_not_balance_have_their_status_without_a_report() {
        let sums = Balance { raised: 11, cleared: 7, expired: 0 };
        let balances = |active| Balances { raw_calls: FourFigures::counted(&sums, active), report: None };
        assert_eq!((status(&balances(4), true), status(&balances(4), false)), (FINE, FOUND));
        assert_eq!((status(&balances(3), true), status(&balances(3), false)), (FOUND, FOUND));
    }
}
