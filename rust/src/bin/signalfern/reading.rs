//! How a list of pairs is read: its form, and what is done with it before it is written.

use crate::arguments::Arguments;
use crate::failure::Failure;
use crate::forms::Layout;
use crate::pairs::{Duplicates, Pairs};
use crate::text::{counted, quoted};

pub struct Reading {
    pub layout: Layout,
    sort: bool,
    duplicates: Duplicates,
}

impl Reading {
    pub fn of(arguments: &Arguments) -> Result<Self, Failure> {
        let told = arguments
            .value("duplicates")
            .map(|word| word.to_string_lossy());
        let duplicates = match told.as_deref() {
            None | Some("refuse") => Duplicates::Refuse,
            Some("first") => Duplicates::First,
            Some("last") => Duplicates::Last,
            Some(word) => {
                let word = quoted(word);
                return Err(arguments.usage(format!("{word} is neither first, last nor refuse")));
            }
        };
        Ok(Self {
            layout: Layout::of(arguments, false)?,
            sort: arguments.has("sort"),
            duplicates,
        })
    }

    /// Sorts the pairs and leaves duplicates out, as told; gives how many.
    pub fn arrange(&self, pairs: &mut Pairs) -> Result<u64, Failure> {
        if self.sort {
            pairs.sort()?;
        }
        pairs.leave_out(self.duplicates)
    }
}

/// What is said of pairs that were left out.
pub fn duplicates(left_out: u64) -> String {
    match left_out {
        0 => String::new(),
        count => format!(", {} left out", counted(count, "duplicate")),
    }
}
