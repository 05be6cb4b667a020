//! A line on standard error that tells how far long work has come.

use std::io::{self, IsTerminal};
use std::time::{Duration, Instant};

use crate::failure::say;

/// Work shorter than this passes in silence.
const PATIENCE: Duration = Duration::from_secs(1);
/// The time between two changes of the line.
const PAUSE: Duration = Duration::from_millis(100);

/// What is counted.
#[derive(Clone, Copy)]
pub enum Unit {
    Bytes,
    Pairs,
    Ids,
}

/// Whether standard error is a terminal that takes the line back by an escape.
fn is_seen() -> bool {
    let is_dumb = std::env::var_os("TERM").is_none_or(|term| term.is_empty() || term == "dumb");
    io::stderr().is_terminal() && !is_dumb
}

/// Shows nothing unless standard error is a terminal, and not a dumb one.
pub struct Progress {
    label: String,
    unit: Unit,
    total: Option<u64>,
    seen: bool,
    due: Instant,
    shown: bool,
}

impl Progress {
    /// `total` is none where nobody knows it. To be told of every piece of work, not of every byte.
    pub fn new(label: String, unit: Unit, total: Option<u64>) -> Self {
        Self {
            label,
            unit,
            total,
            seen: is_seen(),
            due: Instant::now() + PATIENCE,
            shown: false,
        }
    }

    /// Silent where the work itself is printed to a terminal.
    pub fn beside(mut self, on_standard_output: bool) -> Self {
        self.seen &= !(on_standard_output && io::stdout().is_terminal());
        self
    }

    /// Tells that `done` of the total are done.
    pub fn tell(&mut self, done: u64) {
        if !self.seen {
            return;
        }
        let now = Instant::now();
        if now < self.due {
            return;
        }
        self.due = now + PAUSE;
        self.shown = true;
        let line = line(&self.label, self.unit, done, self.total);
        say(&format!("\r\x1b[K{line}"));
    }
}

fn line(label: &str, unit: Unit, done: u64, total: Option<u64>) -> String {
    let counted = |number| match unit {
        Unit::Bytes => size(number),
        Unit::Pairs => format!("{number} pairs"),
        Unit::Ids => format!("{number} ids"),
    };
    match total {
        Some(total) if total > 0 => {
            let percent = (u128::from(done) * 100 / u128::from(total)).min(100);
            let (done, total) = (counted(done), counted(total));
            format!("{label}: {done} of {total}, {percent}%")
        }
        _ => format!("{label}: {}", counted(done)),
    }
}

/// A count of bytes for a person.
fn size(bytes: u64) -> String {
    match bytes {
        0..=9_999 => format!("{bytes} bytes"),
        10_000..=9_999_999 => format!("{} KB", bytes / 1000),
        _ => format!("{} MB", bytes / 1_000_000),
    }
}

impl Drop for Progress {
    fn drop(&mut self) {
        if self.shown {
            say("\r\x1b[K");
        }
    }
}

#[cfg(test)]
mod tests {
    use super::*;

    #[test]
    fn lines_have_their_unit() {
        let bytes = line("reading a", Unit::Bytes, 30_000, Some(90_000));
        assert_eq!(bytes, "reading a: 30 KB of 90 KB, 33%");
        let unknown = line("reading a", Unit::Bytes, 12, None);
        assert_eq!(unknown, "reading a: 12 bytes");
        let pairs = line("printing", Unit::Pairs, 5, Some(5));
        assert_eq!(pairs, "printing: 5 pairs of 5 pairs, 100%");
    }
}
