//! What can go wrong, what is said about it, and the exit status.

use std::fmt::Display;
use std::io::{self, Write};
use std::path::Path;

use signalfern::Refusal;

use crate::text::named;

/// Exit status where the input is refused.
pub const REFUSED: u8 = 1;
/// Exit status where the command line is wrong or a file cannot be used.
pub const TROUBLE: u8 = 2;

/// The tool's own refusals stand beside the library's, which have document 01's numbers.
pub const TEXT: (u64, &str) = (101, "TEXT");
pub const DIGEST: (u64, &str) = (102, "DIGEST");

/// Why a command did not do its work.
#[derive(Debug)]
pub enum Failure {
    /// The input is refused. The message names the file.
    Refused(String),
    /// The command line is wrong or a file cannot be used.
    Trouble(String),
    /// The reader of our output has enough: status 0, and nothing to say.
    OutputClosed,
    /// All is said already; this is the status.
    Said(u8),
}

impl Failure {
    /// A wrong command line; `command` is the one whose help to read.
    pub fn usage(message: impl Display, command: Option<&str>) -> Self {
        let command = command.map_or(String::new(), |name| format!(" {name}"));
        Self::Trouble(format!("{message}\nTry `signalfern{command} --help`."))
    }

    /// A refusal by the library, about `what`: a file, maybe with a line or an id.
    pub fn refused(what: impl Display, refusal: Refusal) -> Self {
        Self::refused_as(what, (refusal.number(), refusal.name()), refusal)
    }

    /// A refusal with a sentence of our own.
    pub fn refused_as(
        what: impl Display,
        (number, name): (u64, &str),
        sentence: impl Display,
    ) -> Self {
        Self::Refused(format!("{what}: refusal {number}, {name}: {sentence}"))
    }

    /// A file that cannot be used; `action` is what was tried, as "read".
    pub fn file(action: &str, path: &Path, error: &io::Error) -> Self {
        Self::Trouble(format!("cannot {action} {}: {error}", named(path)))
    }

    /// Standard output that cannot be written.
    pub fn output(error: &io::Error) -> Self {
        match error.kind() {
            io::ErrorKind::BrokenPipe => Self::OutputClosed,
            _ => Self::Trouble(format!("cannot write to standard output: {error}")),
        }
    }

    /// Says what went wrong on standard error, and gives the exit status.
    pub fn report(&self) -> u8 {
        match self {
            Self::Refused(message) => {
                complain(message);
                REFUSED
            }
            Self::Trouble(message) => {
                complain(message);
                TROUBLE
            }
            Self::OutputClosed => 0,
            Self::Said(status) => *status,
        }
    }
}

/// A message on standard error.
pub fn complain(message: impl Display) {
    say(&format!("signalfern: {message}\n"));
}

/// Text on standard error. Where that cannot be written, the exit status has to do.
pub fn say(text: &str) {
    let _ = io::stderr().write_all(text.as_bytes());
}
