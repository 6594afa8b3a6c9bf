//! `station panel`: the lamps of the desk's panel after the calls of a list.
use crate::failure::{named, Failure, FINE};
use crate::files;
use crate::lamps;
use crate::list::List;
use crate::options::{Form, Options};
use crate::replay;
use crate::ruled::{wrapped, PAGE_WIDTH};
use crate::table::{json_object, json_string, Table};
use alarm_register::{ListActive, Operation, Panel, Severity};

pub const HELP: &str = "\
station panel LIST [--at N] [--mask SEVERITIES] [--json | --csv]

Runs the calls of LIST (a .calls file, or - for standard input) from a fresh
register, and shows what a lamp card reads of it: the panel block, which the
register itself makes. A call that is refused changes nothing.

  --at N              after call N: calls are counted from 1, refused ones too.
                      `station read LIST --numbers` shows the numbers. Without it,
                      after the last call
  --mask SEVERITIES   the severities that are let through, as critical,major: of
                      cleared, indeterminate, warning, minor, major and critical;
                      or all, or none. Without it, all
  --json, --csv       the panel for scripts; CSV has the lamps alone

The flag of a severity is set if an active alarm of it is raised or updated,
whatever the mask; acknowledged and suppressed alarms set none. A lamp is lit where
the flag is set and the mask lets it through. Beside it stands how many active
alarms of the severity are raised or updated.

Below the lamps stand the highest severity that is waiting, which means flagged and
let through; whether there is one; how many alarms are active; and the eight bytes
of the block. No text can light a lamp.

Exit status: 0 fine, whether a lamp is lit or not, 2 the command line is not
understood, 3 LIST is not a list of calls, or has no call N, 4 a file cannot be
read or written.
";

pub fn command(options: &Options) -> Result<u8, Failure> {
    let mut list = files::list(&options.file)?;
    let input = |fault: String| Failure::input(&options.file, fault);
    let title = title(&list, options).map_err(input)?;
    list.calls.truncate(options.at.unwrap_or(usize::MAX));
    let (machine, _) = replay::run(&list).map_err(input)?;
    let mut panel = Panel::new();
    // the block is the register's own: the mask is written, and all else is made with it
    let made = panel.set_mask(machine.register(), options.mask.unwrap_or(Panel::MASK_ALL));
    let active = made.and_then(|()| machine.look(&ListActive { severity: None }.call()));
    let active = active.map_err(|refusal| input(refusal.to_string()))?;
    let shown = Shown { title, calls: list.calls.len(), panel, lamps: lamps::table(panel, &active) };
    files::print(shown.form(options.form).as_bytes()).map(|()| FINE)
}

/// After which call the panel is shown, or that there is no such call.
fn title(list: &List, options: &Options) -> Result<String, String> {
    let after = match (options.at, list.calls.len()) {
        (Some(number), calls) => list.call(number).map(|_| format!("After call {number} of {calls}"))?,
        (None, 0) => "Before any call".to_string(),
        (None, 1) => "After 1 call".to_string(),
        (None, calls) => format!("After {calls} calls"),
    };
    Ok(format!("{after} of {}, from a fresh register.", named(&options.file)))
}

/// What is shown.
struct Shown {
    /// After which call, of which list.
    title: String,
    /// How many calls were run.
    calls: usize,
    panel: Panel,
    lamps: Table,
}

impl Shown {
    fn form(&self, form: Form) -> String {
        match form {
            Form::Page => self.page(),
            Form::Csv => self.lamps.csv(),
            Form::Json => self.json(),
        }
    }

    fn page(&self) -> String {
        let waiting = self.panel.waiting().map_or("none", Severity::name);
        let lines = [
            format!("Highest severity that is waiting: {waiting}"),
            format!("Lit: {}", if self.panel.is_lit() { "yes" } else { "no" }),
            format!("Active alarms, acknowledged and suppressed ones among them: {}", self.panel.active()),
            format!("Block: {}", self.panel),
        ];
        let title = wrapped(&self.title, PAGE_WIDTH).join("\n");
        format!("LAMP PANEL\n{title}\n\n{}\n{}\n", self.lamps.ruled(), lines.join("\n"))
    }

    fn json(&self) -> String {
        json_object(&[
            ("calls", self.calls.to_string()),
            ("flags", self.panel.flags().to_string()),
            ("mask", self.panel.mask().to_string()),
            ("waiting", self.panel.waiting().map_or("null".to_string(), |severity| json_string(severity.name()))),
            ("lit", self.panel.is_lit().to_string()),
            ("active", self.panel.active().to_string()),
            ("block", json_string(&self.panel.to_string().replace(' ', ""))),
            ("lamps", self.lamps.json()),
        ])
    }
}
