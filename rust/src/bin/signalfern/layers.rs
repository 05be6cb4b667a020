//! The pairs of a column with a correction on top, one after another, by the proved reading of both: some at a time, in
//! little memory whatever the columns hold.

use signalfern::{Layer, LayeredRefusal, MAX_ID};

use crate::column::{Asked, Corrected};
use crate::failure::Failure;
use crate::load::Loaded;

/// Pairs that a call reads.
const ROOM: usize = 4096;

/// A column that was checked, and a checked correction.
pub struct Layers<'a> {
    machine: &'a Loaded,
    correction: &'a Loaded,
    both: Corrected<'a>,
}

impl<'a> Layers<'a> {
    pub fn of(machine: &'a Loaded, correction: &'a Loaded) -> Result<Self, Failure> {
        let both = Asked::of(machine)?.under(&Asked::of(correction)?);
        Ok(Self {
            machine,
            correction,
            both,
        })
    }

    /// The pairs from an id on, each with the column that it came from.
    pub fn pairs_from(&self, id: u32) -> Pairs<'_> {
        Pairs {
            both: &self.both,
            ids: vec![0; ROOM],
            values: vec![0; ROOM],
            columns: vec![0; ROOM],
            taken: 0,
            held: 0,
            from: Some(id),
        }
    }

    /// What stopped a reading, as the tool tells it. Bytes that the check accepted never do.
    pub fn failure(&self, refused: LayeredRefusal) -> Failure {
        let name = match refused.layer {
            Layer::Machine => &self.machine.name,
            Layer::Correction => &self.correction.name,
        };
        Failure::refused(name, refused.refusal)
    }
}

pub struct Pairs<'a> {
    both: &'a Corrected<'a>,
    ids: Vec<u32>,
    values: Vec<i64>,
    columns: Vec<u8>,
    /// The place of the next pair in the lists, and how many pairs are there.
    taken: usize,
    held: usize,
    /// The id that the next call reads from; none at the end.
    from: Option<u32>,
}

impl Pairs<'_> {
    /// Reads on. Where no pair came, that was the end.
    fn fill(&mut self) -> Result<(), LayeredRefusal> {
        let Some(from) = self.from.take() else {
            return Ok(());
        };
        let (ids, values) = (&mut self.ids, &mut self.values);
        let read = self.both.read_from(from, ids, values, &mut self.columns)?;
        (self.taken, self.held) = (0, read.count);
        if !read.ended {
            let last = self.ids[..read.count].last();
            self.from = last.map(|id| id + 1).filter(|&id| id <= MAX_ID);
        }
        Ok(())
    }
}

impl Iterator for Pairs<'_> {
    type Item = Result<(u32, i64, Layer), LayeredRefusal>;

    #[inline]
    fn next(&mut self) -> Option<Self::Item> {
        if self.taken == self.held {
            if let Err(refused) = self.fill() {
                return Some(Err(refused));
            }
            if self.taken == self.held {
                return None;
            }
        }
        let at = self.taken;
        self.taken += 1;
        let layer = Layer::from_number(self.columns[at])?;
        Some(Ok((self.ids[at], self.values[at], layer)))
    }
}
