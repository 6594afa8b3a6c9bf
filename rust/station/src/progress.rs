//! How far a long replay has come, on a terminal.
use std::io::{self, IsTerminal, Write};
use std::time::{Duration, Instant};

const BEFORE_FIRST: Duration = Duration::from_millis(400);
const BETWEEN: Duration = Duration::from_millis(100);
const WIDTH: usize = 32;

/// A bar on standard error that shows itself once a replay has taken a while, and only on a terminal.
pub struct Progress {
    total: usize,
    next: Option<Instant>,
    /// The length of the bar that stands there.
    shown: usize,
}

impl Progress {
    /// A bar for that many calls.
    pub fn new(total: usize) -> Progress {
        let next = io::stderr().is_terminal().then(|| Instant::now() + BEFORE_FIRST);
        Progress { total, next, shown: 0 }
    }

    /// Shows that so many calls are done, where it is time.
    pub fn done(&mut self, calls: usize) {
        if self.next.is_some_and(|next| Instant::now() >= next) {
            let filled = WIDTH * calls / self.total.max(1);
            let bar = format!("[{}{}] {calls} of {} calls", "#".repeat(filled), ".".repeat(WIDTH - filled), self.total);
            // a bar that cannot be drawn is no reason to stop
            let _ = write!(io::stderr(), "\r{bar}");
            self.next = Some(Instant::now() + BETWEEN);
            self.shown = bar.len();
        }
    }
}

impl Drop for Progress {
    fn drop(&mut self) {
        if self.shown > 0 {
            // blanks, since not every terminal knows how to erase a line
            let _ = write!(io::stderr(), "\r{}\r", " ".repeat(self.shown));
        }
    }
}
