//! Files and standard streams.
use crate::failure::{tell, Failure};
use crate::list::List;
use std::fs;
use std::io::{self, Read, Write};

/// The bytes of a file; `-` is standard input.
pub fn bytes(file: &str) -> Result<Vec<u8>, Failure> {
    let read = if file == "-" {
        let mut whole = Vec::new();
        io::stdin().lock().read_to_end(&mut whole).map(|_| whole)
    } else {
        fs::read(file)
    };
    read.map_err(|error| Failure::system("read", file, &error))
}

/// The text of a file.
pub fn text(file: &str) -> Result<String, Failure> {
    String::from_utf8(bytes(file)?).map_err(|error| {
        let before = &error.as_bytes()[..error.utf8_error().valid_up_to()];
        let line = before.iter().filter(|byte| **byte == b'\n').count() + 1;
        Failure::input(file, format!("line {line}: this is not text (not UTF-8)"))
    })
}

/// The list of calls of a file.
pub fn list(file: &str) -> Result<List, Failure> {
    List::read(&bytes(file)?).map_err(|fault| Failure::input(file, fault))
}

/// Writes a file, or standard output where none is named.
pub fn write(file: Option<&str>, bytes: &[u8]) -> Result<(), Failure> {
    match file {
        Some(file) => fs::write(file, bytes).map_err(|error| Failure::system("write", file, &error)),
        None => print(bytes),
    }
}

/// Writes to standard output.
pub fn print(bytes: &[u8]) -> Result<(), Failure> {
    let mut out = io::stdout().lock();
    out.write_all(bytes).and_then(|()| out.flush()).map_err(|error| Failure::system("write", "standard output", &error))
}

/// Writes to standard output, and says a fault aloud even if nobody reads that. Gives the status, which tells of the fault too.
pub fn show(shown: &str, fault: Option<&str>, status: u8) -> Result<u8, Failure> {
    let printed = print(shown.as_bytes());
    fault.into_iter().for_each(tell);
    match printed {
        Err(Failure::Closed) if fault.is_some() => Ok(status),
        printed => printed.map(|()| status),
    }
}
