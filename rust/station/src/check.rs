//! `station check`: whether a file holds a sound register.
use crate::examine::{self, Finding};
use crate::failure::{named, Failure, FINE, FOUND};
use crate::files;
use crate::options::{Form, Options};
use crate::table::{column, json_object, numbers, Cell, Table};
use alarm_register::Register;

pub const HELP: &str = "\
station check REGISTER [--json | --csv]

Says whether the bytes of REGISTER (or - for standard input) are a sound register.
The verdict is the register's own: where it is not sound, every call is refused
with number 22. Then a list of places follows where a person should look. That
list is a help outside the proof, and the verdict does not rest on it.

Bytes are counted from the file's start; record 0 is the header. docs/LAYOUT.md
names each field. `station replay LIST -o REGISTER` writes such a file.

  --json, --csv   the verdict and the places for scripts; CSV has the places alone

Exit status: 0 sound, 1 not sound, 2 the command line is not understood, 4 a file
cannot be read or written.
";

/// How many places a page lists.
const ON_PAGE: usize = 20;

pub fn command(options: &Options) -> Result<u8, Failure> {
    let mut bytes = files::bytes(&options.file)?;
    let sound = Register::over(&mut bytes).is_sound();
    let findings = if sound { Vec::new() } else { examine::register(&bytes) };
    let table = table(&findings);
    let shown = match options.form {
        Form::Page if sound => format!("{}: a sound register.\n{}\n", named(&options.file), contents(&mut bytes)),
        Form::Page => unsound(&named(&options.file), &table),
        Form::Csv => table.csv(),
        Form::Json => json_object(&[("sound", sound.to_string()), ("places", table.json())]),
    };
    files::print(shown.as_bytes())?;
    Ok(if sound { FINE } else { FOUND })
}

/// The limits of a sound register, and what it holds.
fn contents(bytes: &mut [u8]) -> String {
    let [active, history, audit, free] = examine::lengths(bytes);
    let limits = Register::over(bytes).limits().map(|limits| limits.to_string()).unwrap_or_default();
    format!(
        "It has room for {limits}.\nIt holds {active} active, {history} in history, {audit} in audit; {free} records are free."
    )
}

fn unsound(file: &str, table: &Table) -> String {
    let said = format!("{file}: not a sound register (22).\n\n");
    match table.rows.len() {
        0 => {
            format!("{said}No place was found to look at. That is a fault of this help, not of the verdict: please report it.\n")
        }
        found if found <= ON_PAGE => format!("{said}{}", table.ruled()),
        found => {
            let first = Table {
                rows: table.rows[..ON_PAGE].to_vec(),
                title: format!("{}: the first {ON_PAGE} of {found} places", table.title),
                ..columns()
            };
            format!("{said}{}--csv lists all.\n", first.ruled())
        }
    }
}

fn columns() -> Table {
    let columns = vec![numbers("record"), numbers("byte"), column("what")];
    Table { name: "places", title: "WHERE TO LOOK".to_string(), columns, rows: Vec::new() }
}

fn table(findings: &[Finding]) -> Table {
    let row =
        |finding: &Finding| vec![Cell::Number(finding.record as u64), Cell::Number(finding.byte as u64), Cell::of(&finding.what)];
    Table { rows: findings.iter().map(row).collect(), ..columns() }
}
