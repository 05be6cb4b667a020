//! The edition in which a list takes the fewest bytes, for `write --best`.

use std::fmt::Write;

use signalfern::{Edition, Refusal};

use crate::json::Object;
use crate::pairs::Pairs;

/// The editions, by number.
const EACH: [Edition; 4] = [
    Edition::Plain,
    Edition::Lucene,
    Edition::Runs,
    Edition::Table,
];

/// What a list takes in each edition.
pub struct Sizes([(Edition, usize); 4]);

impl Sizes {
    /// Or why the list cannot be written, which is the same in each.
    pub fn of(pairs: &Pairs, power: u32) -> Result<Self, Refusal> {
        let mut sizes = EACH.map(|edition| (edition, 0));
        for (edition, size) in &mut sizes {
            *size = bytes_in(pairs, *edition, power)?;
        }
        Ok(Self(sizes))
    }

    /// That with the fewest bytes; of several the first.
    pub fn best(&self) -> Edition {
        let least = self.0.iter().min_by_key(|(_, bytes)| bytes);
        least.map_or(Edition::default(), |&(edition, _)| edition)
    }

    /// The edition that is written where this one is told, or the best. Told 4, the writer gives 1 where no table
    /// is shorter.
    pub fn written(&self, told: Option<Edition>) -> Edition {
        let edition = told.unwrap_or(self.best());
        match self.bytes(edition) == self.bytes(Edition::Plain) {
            true if edition == Edition::Table => Edition::Plain,
            _ => edition,
        }
    }

    /// The bytes in an edition.
    pub fn bytes(&self, edition: Edition) -> usize {
        let its = self.0.iter().find(|(other, _)| *other == edition);
        its.map_or(0, |(_, bytes)| *bytes)
    }

    /// An object about each.
    pub fn objects(&self) -> Vec<Object> {
        let object = |&(edition, bytes): &(Edition, usize)| {
            Object::new()
                .number("edition", edition.number())
                .number("bytes", bytes as u64)
        };
        self.0.iter().map(object).collect()
    }

    /// A line about each. Told edition 4, the writer gives edition 1 where no table is shorter.
    pub fn lines(&self) -> String {
        let plain = self.0[0].1;
        let mut out = String::new();
        for (edition, bytes) in self.0 {
            let about = match edition {
                Edition::Table if bytes == plain => "no table makes it shorter".to_string(),
                _ => format!("{bytes} bytes"),
            };
            // Writing to a string cannot fail.
            let _ = writeln!(out, "edition {}: {about}", edition.number());
        }
        out
    }
}

/// No column is empty, so a writer without room tells the bytes.
fn bytes_in(pairs: &Pairs, edition: Edition, power: u32) -> Result<usize, Refusal> {
    match signalfern::write(&pairs.ids, &pairs.values, edition, power, &mut []) {
        Err(Refusal::Room { needed }) => Ok(needed),
        other => other,
    }
}
