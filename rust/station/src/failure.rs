//! Why a command ends early, and with which exit status.
use std::fmt;
use std::io::{self, Write};
use std::path::Path;

/// Everything went well.
pub const FINE: u8 = 0;
/// The figures differ, a balance or a bound does not hold, the twins differ, or the register is not sound.
pub const FOUND: u8 = 1;

/// A command that cannot be carried out; each has one sentence for people.
#[derive(Debug)]
pub enum Failure {
    /// The command line is not understood: status 2.
    Usage(String),
    /// A file does not hold what it should: status 3.
    Input(String),
    /// A file cannot be read or written: status 4.
    System(String),
    /// Nobody reads the output any more: status 0, and nothing is said.
    Closed,
}

impl Failure {
    /// The exit status.
    pub fn status(&self) -> u8 {
        match self {
            Failure::Usage(_) => 2,
            Failure::Input(_) => 3,
            Failure::System(_) => 4,
            Failure::Closed => FINE,
        }
    }

    /// A file that does not hold what it should.
    pub fn input(file: &str, fault: impl fmt::Display) -> Failure {
        Failure::Input(format!("{}: {fault}", named(file)))
    }

    /// A file that cannot be used.
    pub fn system(verb: &str, file: &str, error: &io::Error) -> Failure {
        match error.kind() {
            io::ErrorKind::BrokenPipe => Failure::Closed,
            kind => Failure::System(format!("cannot {verb} {}: {}", named(file), reason(kind, error))),
        }
    }
}

/// Says a sentence on standard error.
pub fn tell(said: &str) {
    // where standard error is closed too, the status alone tells
    let _ = writeln!(io::stderr(), "station: {said}");
}

/// What follows where a run shows otherwise than is proved of the register.
pub fn damaged(proved: &str) -> String {
    format!("the register is proved {proved}, so its library or this program is damaged: use no figure of this run")
}

/// How a file is named to people: `-` is standard input.
pub fn named(file: &str) -> String {
    if file == "-" {
        return "standard input".to_string();
    }
    Path::new(file).display().to_string()
}

/// What the system says, without its number.
fn reason(kind: io::ErrorKind, error: &io::Error) -> String {
    match kind {
        io::ErrorKind::NotFound => "there is no such file or folder".to_string(),
        io::ErrorKind::PermissionDenied => "permission denied".to_string(),
        io::ErrorKind::IsADirectory => "it is a folder".to_string(),
        io::ErrorKind::StorageFull => "the disk is full".to_string(),
        _ => error.to_string(),
    }
}
