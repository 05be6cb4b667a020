//! How the writer stores a list of values in each edition.

use crate::values::{divisor_of, pack, section_bytes, Edition};
use crate::{lucene, runs, table};

/// How a list of values is stored: the header's numbers of it, and the bytes of the section.
pub(crate) struct Layout<'a> {
    pub edition: Edition,
    pub smallest: i64,
    pub divisor: u64,
    pub width: u32,
    pub value_bytes: u64,
    /// That of edition 4.
    table: &'a [i64],
}

impl<'a> Layout<'a> {
    /// In edition 1, 2 or 3.
    pub fn of(values: &[i64], edition: Edition) -> Self {
        let count = values.len() as u64;
        match edition {
            Edition::Runs => Self::in_runs(values),
            _ => Self::packed(count, values.iter().copied(), edition),
        }
    }

    /// By a plan that the small check took: plain gives edition 1.
    pub fn planned(values: &[i64], plan: &'a [i64]) -> Self {
        let count = values.len() as u64;
        match plan {
            [] => Self::plain(count, values.iter().copied()),
            _ => Self::tabled(count, plan),
        }
    }

    /// Edition 1 of so many values, each of which is among these, and these among them: g and w do not go by
    /// how often a value comes.
    pub fn plain(count: u64, values: impl Iterator<Item = i64> + Clone) -> Self {
        Self::packed(count, values, Edition::Plain)
    }

    fn packed(count: u64, values: impl Iterator<Item = i64> + Clone, edition: Edition) -> Self {
        let divisor = divisor_of(values.clone());
        let smallest = values.clone().min().unwrap_or(0);
        let greatest = values.max().unwrap_or(0);
        let width = edition.width_for(greatest.abs_diff(smallest) / divisor);
        Self {
            edition,
            smallest,
            divisor,
            width,
            value_bytes: section_bytes(count, width.into()),
            table: &[],
        }
    }

    /// The runs have a smallest value and a width each, and the header none.
    fn in_runs(values: &[i64]) -> Self {
        let divisor = divisor_of(values.iter().copied());
        Self {
            edition: Edition::Runs,
            smallest: 0,
            divisor,
            width: 0,
            value_bytes: runs::value_bytes(values, divisor),
            table: &[],
        }
    }

    /// "Header smallest is 0 and g holds the table's count".
    pub fn tabled(count: u64, table: &'a [i64]) -> Self {
        let entries = table.len() as u64;
        Self {
            edition: Edition::Table,
            smallest: 0,
            divisor: entries,
            width: table::width_for(entries),
            value_bytes: table::value_bytes(entries, count),
            table,
        }
    }

    /// Writes the section; `out` has exactly its bytes.
    pub fn write(&self, values: &[i64], out: &mut [u8]) {
        match self.edition {
            Edition::Runs => runs::write(values, self.divisor, out),
            Edition::Table => table::write(values, self.table, out),
            _ if self.width == 0 => {}
            Edition::Lucene => {
                let stored = |value: &i64| value.abs_diff(self.smallest) / self.divisor;
                lucene::pack(out, self.width, values.iter().map(stored));
            }
            Edition::Plain if self.divisor == 1 => {
                pack(out, self.width, values, |v| v.abs_diff(self.smallest));
            }
            Edition::Plain => pack(out, self.width, values, |v| {
                v.abs_diff(self.smallest) / self.divisor
            }),
        }
    }
}
