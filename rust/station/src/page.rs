//! `station replay`: a register as a page of the station's book.
use crate::failure::{named, Failure, FINE};
use crate::files;
use crate::list::List;
use crate::options::{usage, Form, Options};
use crate::replay;
use crate::table::{json_object, Table};
use crate::tables;

pub const HELP: &str = "\
station replay LIST [--only TABLE] [--zone ZONE] [--json | --csv] [-o REGISTER]

Runs the calls of LIST (a .calls file, or - for standard input) from a fresh
register, and prints the register as a page of the station's book: active alarms,
history, audit trail, counts by severity and cause, what the calls were answered,
and the summary. The page leaves out types, scopes, details and keys; --json and
--csv have them. Its columns are measured in characters: a terminal that gives one
of them two cells, as many do for Chinese and for pictures, moves what is behind.

  --only TABLE   active, history, audit, counts, answers or summary alone
  --zone ZONE    times of clocks so far ahead of UTC, as +01:00; without it, UTC
  --json         all tables, or the one of --only, as a JSON object
  --csv          the table of --only as CSV
  -o REGISTER    also writes the register's bytes to a file, for `station check`

The column `times` tells how often an alarm was raised since it became active:
raised anew after a clear or an expiry it starts at 1. In history it is as of that
change, or of the last of like changes in a row, which share an entry.

Where an alarm is suppressed until a time, `until` and that time stand below its
state. It stays suppressed until a lift comes, also behind that time.

In the summary worst severity and readiness are of the active alarms that are not
suppressed; how many are suppressed stands below the number of active ones.

Audit events that calls of the list took out stand in the audit trail with the
number of the call that took them. On a terminal a bar shows how far a long
replay has come.

Exit status: 0 fine, 2 the command line is not understood, 3 LIST is not a list
of calls, 4 a file cannot be read or written.
";

pub fn command(options: &Options) -> Result<u8, Failure> {
    let list = files::list(&options.file)?;
    let (machine, tally) = replay::run(&list).map_err(|fault| Failure::input(&options.file, fault))?;
    let tables = tables::of(&machine, &tally, options.zone).map_err(|fault| Failure::input(&options.file, fault))?;
    let wanted: Vec<&Table> = tables.iter().filter(|table| options.only.as_ref().is_none_or(|only| only == table.name)).collect();
    if wanted.is_empty() {
        let known: Vec<&str> = tables.iter().map(|table| table.name).collect();
        return Err(usage("replay", &format!("--only takes one of {}", known.join(", "))));
    }
    let shown = match (options.form, &wanted[..]) {
        (Form::Page, _) => page(options, &list, &wanted),
        (Form::Json, _) => json(&list, &wanted),
        (Form::Csv, [table]) => table.csv(),
        (Form::Csv, _) => return Err(usage("replay", "--csv needs --only, since a CSV file holds one table")),
    };
    if let Some(file) = &options.output {
        files::write(Some(file), machine.register())?;
    }
    files::print(shown.as_bytes()).map(|()| FINE)
}

fn page(options: &Options, list: &List, tables: &[&Table]) -> String {
    let ruled: Vec<String> = tables.iter().map(|table| table.ruled()).collect();
    if options.only.is_some() {
        return ruled.join("\n");
    }
    let calls = match list.calls.len() {
        1 => "1 call".to_string(),
        calls => format!("{calls} calls"),
    };
    let room = format!("It has room for {}. Clock times are {}.", list.limits, options.zone.name());
    let title = format!("{calls} of {}, from a fresh register.", named(&options.file));
    format!("STATION ALARM REGISTER\n{title}\n{room}\n\n{}", ruled.join("\n"))
}

fn json(list: &List, tables: &[&Table]) -> String {
    let mut values = vec![
        ("calls", list.calls.len().to_string()),
        (
            "limits",
            format!(
                "{{\"active\": {}, \"history\": {}, \"audit\": {}}}",
                list.limits.active, list.limits.history, list.limits.audit
            ),
        ),
    ];
    values.extend(tables.iter().map(|table| (table.name, table.json())));
    json_object(&values)
}
