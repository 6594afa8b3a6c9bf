//! The command line.
use crate::failure::Failure;
use crate::lamps::mask_named;
use crate::text::{severity_named, Zone};
use alarm_register::Severity;

/// The form of the output.
#[derive(Clone, Copy, Debug, PartialEq, Eq)]
pub enum Form {
    /// For people.
    Page,
    /// For scripts.
    Json,
    /// For scripts and spreadsheets.
    Csv,
}

/// What stands on the command line behind the command's name.
#[derive(Debug)]
pub struct Options {
    /// The file that the command is about.
    pub file: String,
    /// Where the command writes.
    pub output: Option<String>,
    /// The report that is recounted.
    pub against: Option<String>,
    /// The table that is wanted.
    pub only: Option<String>,
    /// Whether figures that a report leaves out are no differences.
    pub partial: bool,
    /// Whether calls are shown with their numbers.
    pub numbers: bool,
    /// The number of the call that is meant, from 1.
    pub at: Option<usize>,
    /// The severity that it gets.
    pub severity: Option<Severity>,
    /// The mask of a panel.
    pub mask: Option<u8>,
    /// The form of the output.
    pub form: Form,
    /// The zone of the times in it.
    pub zone: Zone,
}

impl Options {
    /// Reads the words behind a command; `known` are the options that it has.
    pub fn read(command: &str, known: &[&str], words: &[String]) -> Result<Options, Failure> {
        let mut options = Options {
            file: String::new(),
            output: None,
            against: None,
            only: None,
            partial: false,
            numbers: false,
            at: None,
            severity: None,
            mask: None,
            form: Form::Page,
            zone: Zone::default(),
        };
        let mut files = Vec::new();
        let mut words = words.iter();
        while let Some(word) = words.next() {
            if !word.starts_with('-') || word == "-" {
                files.push(word.clone());
            } else if !known.contains(&word.as_str()) {
                return Err(usage(command, &format!("there is no option {word}")));
            } else {
                options.set(command, word, &mut words)?;
            }
        }
        match <[String; 1]>::try_from(files) {
            Ok([file]) if options.output.as_deref().is_some_and(|output| same_file(&file, output)) => {
                Err(usage(command, &format!("{file} is read, and would be written over")))
            }
            Ok([file]) => Ok(Options { file, ..options }),
            Err(files) => Err(usage(command, &format!("one file is needed, and {} are named", files.len()))),
        }
    }

    fn set<'a>(&mut self, command: &str, word: &str, rest: &mut impl Iterator<Item = &'a String>) -> Result<(), Failure> {
        let mut value = || rest.next().cloned().ok_or_else(|| usage(command, &format!("{word} needs a value")));
        match word {
            "-o" => self.output = Some(value()?),
            "--against" => self.against = Some(value()?),
            "--only" => self.only = Some(value()?),
            "--partial" => self.partial = true,
            "--numbers" => self.numbers = true,
            "--at" => {
                let number = value()?.parse().ok().filter(|number| *number > 0);
                self.at = Some(number.ok_or_else(|| usage(command, "--at takes the number of a call, counted from 1"))?);
            }
            "--severity" => {
                self.severity = Some(severity_named(value()?.as_bytes()).map_err(|known| usage(command, known))?);
            }
            "--mask" => self.mask = Some(mask_named(&value()?).map_err(|known| usage(command, known))?),
            "--zone" => {
                self.zone = Zone::of(&value()?).map_err(|_| usage(command, "--zone takes a zone such as +01:00 or UTC"))?
            }
            "--json" | "--csv" if self.form != Form::Page => return Err(usage(command, "--json and --csv do not go together")),
            "--json" => self.form = Form::Json,
            _ => self.form = Form::Csv,
        }
        Ok(())
    }
}

/// Whether two names are of one file that is there.
fn same_file(first: &str, second: &str) -> bool {
    let there = |file: &str| std::fs::canonicalize(file).ok();
    there(first).is_some() && there(first) == there(second)
}

/// A command line that is not understood.
pub fn usage(command: &str, fault: &str) -> Failure {
    Failure::Usage(format!("{fault}; see `station {command} --help`"))
}
