//! `station`: lists of calls to a station alarm register, for the desk.
mod active;
mod balance;
mod beside;
mod bound;
mod bounds;
mod chain;
mod change;
mod check;
mod examine;
mod failure;
mod figures;
mod files;
mod lamps;
mod list;
mod options;
mod page;
mod panel;
mod progress;
mod raises;
mod reach;
mod record;
mod recount;
mod replay;
mod ruled;
mod table;
mod tables;
mod text;
mod twin;

use failure::{Failure, FINE};
use options::Options;
use std::io::IsTerminal;
use std::process::ExitCode;

const HELP: &str = "\
station COMMAND FILE [OPTIONS]

Keeps the calls of a station alarm register as files, runs them, and recounts
reports from them. `station COMMAND --help` says more.

  write TEXT -o LIST              makes a list of calls (.calls) from its text
  read LIST                       prints the text of a list
  replay LIST                     runs the calls, and prints the register as a
                                  page of the station's book
  recount LIST --against REPORT   the figures of the raw calls beside a report's
  twin LIST                       runs the calls with other texts, and shows that
                                  every figure is the same
  reach LIST --at N --severity S  how far one wrong severity reaches: the figures
                                  with it and without it, and which are bounded
  panel LIST                      runs the calls, and shows the lamps of the desk's
                                  panel; --at N after call N
  check REGISTER                  whether a file holds a sound register, and
                                  where to look if not

A file named - is standard input. `station --version` prints the version.

Exit status:
  0  fine; also where the reader stops early, as in `station read LIST | head`
  1  figures differ, a balance or a bound does not hold, twins differ, or the
     register is not sound
  2  the command line is not understood
  3  a file does not hold what it should
  4  a file cannot be read or written
";

const WRITE_HELP: &str = "\
station write TEXT [-o LIST]

Makes a list of calls from its text: one call a line, as in

  limits active=16 history=64 audit=16
  day 14 March 2026
  09:12 suppress id=A1 authorised=yes
  2026-03-14 09:13 acknowledge id=A2 authorised=no
  lift up-to 16:05
  summary

docs/CALLS.md has every operation and every way to write a date; examples/day.txt
is a whole day. A call that a register would refuse for what it says (numbers 23
to 29, 33 and 34) is a fault here, told with its line and column, which are counted
in characters. So are the 120 that an alarm's text may have: of a longer one the
first character too many is named. The end of a suppress-until that is not later
than the call's time is told where it stands. `raw` takes bytes of any kind. TEXT
may be - for standard input.

  -o LIST   writes the list to a file; without it, to standard output

Exit status: 0 fine, 2 the command line is not understood, 3 TEXT has a fault,
4 a file cannot be read or written.
";

const READ_HELP: &str = "\
station read LIST [--zone ZONE] [--numbers] [-o TEXT]

Prints a list of calls as text. `station write` makes the same bytes of it again.
A call that a register refuses for what it says is printed as its bytes, with the
refusal behind it as a comment. LIST may be - for standard input.

  --zone ZONE   times of clocks so far ahead of UTC, as +01:00; without it, UTC
  --numbers     the number of each call behind it, as a comment; the first is 1
  -o TEXT       writes to a file

Exit status: 0 fine, 2 the command line is not understood, 3 LIST is not a list
of calls, 4 a file cannot be read or written.
";

/// What carries out a command, its help, and the options that it has.
struct Command {
    name: &'static str,
    help: &'static str,
    options: &'static [&'static str],
    run: fn(&Options) -> Result<u8, Failure>,
}

const COMMANDS: [Command; 8] = [
    Command { name: "write", help: WRITE_HELP, options: &["-o"], run: write },
    Command { name: "read", help: READ_HELP, options: &["-o", "--zone", "--numbers"], run: read },
    Command { name: "replay", help: page::HELP, options: &["-o", "--only", "--zone", "--json", "--csv"], run: page::command },
    Command {
        name: "recount",
        help: recount::HELP,
        options: &["--against", "--partial", "--json", "--csv"],
        run: recount::command,
    },
    Command { name: "twin", help: twin::HELP, options: &["--json", "--csv"], run: twin::command },
    Command {
        name: "reach",
        help: reach::HELP,
        options: &["--at", "--severity", "--zone", "--json", "--csv"],
        run: reach::command,
    },
    Command { name: "panel", help: panel::HELP, options: &["--at", "--mask", "--json", "--csv"], run: panel::command },
    Command { name: "check", help: check::HELP, options: &["--json", "--csv"], run: check::command },
];

fn write(options: &Options) -> Result<u8, Failure> {
    if options.output.is_none() && std::io::stdout().is_terminal() {
        return Err(options::usage("write", "-o is needed, since a list of calls is not for reading on a terminal"));
    }
    let list = text::read(&files::text(&options.file)?).map_err(|fault| Failure::input(&options.file, fault))?;
    files::write(options.output.as_deref(), &list.write()).map(|()| FINE)
}

fn read(options: &Options) -> Result<u8, Failure> {
    let list = files::list(&options.file)?;
    files::write(options.output.as_deref(), text::write(&list, options.zone, options.numbers).as_bytes()).map(|()| FINE)
}

fn asks_for_help(word: &String) -> bool {
    word == "--help" || word == "-h"
}

fn run(words: &[String]) -> Result<u8, Failure> {
    let Some((name, rest)) = words.split_first() else {
        return Err(Failure::Usage("no command is given; see `station --help`".to_string()));
    };
    if asks_for_help(name) || name == "help" {
        return files::print(HELP.as_bytes()).map(|()| FINE);
    }
    if name == "--version" {
        return files::print(concat!("station ", env!("CARGO_PKG_VERSION"), "\n").as_bytes()).map(|()| FINE);
    }
    let Some(command) = COMMANDS.iter().find(|command| command.name == name) else {
        return Err(Failure::Usage(format!("there is no command {name}; see `station --help`")));
    };
    if rest.iter().any(asks_for_help) {
        return files::print(command.help.as_bytes()).map(|()| FINE);
    }
    (command.run)(&Options::read(name, command.options, rest)?)
}

fn main() -> ExitCode {
    let words: Vec<String> = std::env::args_os().skip(1).map(|word| word.to_string_lossy().into_owned()).collect();
    let status = run(&words).unwrap_or_else(|failure| {
        if let Failure::Usage(said) | Failure::Input(said) | Failure::System(said) = &failure {
            failure::tell(said);
        }
        failure.status()
    });
    ExitCode::from(status)
}
