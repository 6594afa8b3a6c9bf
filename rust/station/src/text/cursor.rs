//! A place in a line of text, and faults found there.
use std::fmt;

/// What is wrong in a text, and where.
#[derive(Clone, Debug, PartialEq, Eq)]
pub struct Fault {
    line: usize,
    column: usize,
    message: String,
}

impl Fault {
    /// A fault in a column; columns are characters, from 1.
    pub fn new(column: usize, message: &str) -> Fault {
        Fault { line: 1, column, message: message.to_string() }
    }

    /// The fault, on a line.
    pub fn on(self, line: usize) -> Fault {
        Fault { line, ..self }
    }

    /// The fault, where a cursor stands.
    pub fn at(self, cursor: &Cursor<'_>) -> Fault {
        Fault { column: cursor.column(), ..self }
    }
}

impl fmt::Display for Fault {
    fn fmt(&self, f: &mut fmt::Formatter<'_>) -> fmt::Result {
        write!(f, "line {}, column {}: {}", self.line, self.column, self.message)
    }
}

/// A line, and how far it was read.
#[derive(Clone, Debug)]
pub struct Cursor<'a> {
    rest: &'a str,
    column: usize,
}

impl<'a> Cursor<'a> {
    /// The start of a line.
    pub fn new(line: &'a str) -> Cursor<'a> {
        Cursor { rest: line, column: 1 }
    }

    /// What was not read yet.
    pub fn rest(&self) -> &'a str {
        self.rest
    }

    /// The column of the next character.
    pub fn column(&self) -> usize {
        self.column
    }

    /// A fault at the next character.
    pub fn fault(&self, message: &str) -> Fault {
        Fault::new(self.column(), message)
    }

    /// The next character.
    pub fn peek(&self) -> Option<char> {
        self.rest().chars().next()
    }

    /// Takes the next character.
    pub fn next(&mut self) -> Option<char> {
        let mut left = self.rest.chars();
        let next = left.next()?;
        (self.rest, self.column) = (left.as_str(), self.column + 1);
        Some(next)
    }

    /// Takes the next character where it is this one.
    pub fn skip(&mut self, wanted: char) -> bool {
        let there = self.peek() == Some(wanted);
        if there {
            self.next();
        }
        there
    }

    /// Takes characters as long as they pass.
    pub fn take_while(&mut self, passes: impl Fn(char) -> bool) -> &'a str {
        let (taken, left) = self.rest.split_at(self.rest.find(|c| !passes(c)).unwrap_or(self.rest.len()));
        (self.rest, self.column) = (left, self.column + taken.chars().count());
        taken
    }

    /// Passes over blanks.
    pub fn blanks(&mut self) {
        self.take_while(|c| c == ' ' || c == '\t');
    }

    /// Takes all up to the next blank.
    pub fn word(&mut self) -> &'a str {
        self.take_while(|c| c != ' ' && c != '\t')
    }

    /// The next word, which stays unread.
    pub fn peek_word(&self) -> &'a str {
        self.clone().word()
    }

    /// Whether nothing but a comment follows.
    pub fn at_end(&self) -> bool {
        matches!(self.peek(), None | Some('#'))
    }

    /// Sees that nothing but blanks and a comment follow.
    pub fn end(&mut self) -> Result<(), Fault> {
        self.blanks();
        if self.at_end() {
            Ok(())
        } else {
            Err(self.fault(&format!("nothing more was expected here, and there is `{}`", self.peek_word())))
        }
    }
}
