//! The pairs of a column, one after another, by the proved reading from an id on: some at a time, in little memory
//! whatever the column holds.

use signalfern::{Column, Refusal, MAX_ID};

use crate::column::Asked;
use crate::failure::Failure;
use crate::load::Loaded;
use crate::text::counted;

/// Pairs that a call reads.
const ROOM: usize = 4096;

/// The pairs of a column that was checked.
pub struct Scan<'a> {
    loaded: &'a Loaded,
    column: Column<'a>,
}

impl<'a> Scan<'a> {
    pub fn of(loaded: &'a Loaded) -> Result<Self, Failure> {
        let column = Asked::of(loaded)?.column();
        Ok(Self { loaded, column })
    }

    /// All pairs in order. It may be gone through several times.
    pub fn pairs(&self) -> Pairs<'a> {
        self.pairs_from(0)
    }

    /// Those from an id on.
    pub fn pairs_from(&self, id: u32) -> Pairs<'a> {
        Pairs::from(self.column, id)
    }

    pub fn column(&self) -> Column<'a> {
        self.column
    }

    /// What stopped a reading, as the tool tells it.
    pub fn failure(&self, stop: Stop) -> Failure {
        stop.failure(&self.loaded.name)
    }
}

/// Why there are no more pairs, although there should be. Bytes that the check accepted give neither.
#[derive(Clone, Copy, Debug, PartialEq, Eq)]
pub enum Stop {
    Refused(Refusal),
    /// The whole column was read, and these were its pairs; the header tells of others.
    Count {
        read: u64,
        told: u64,
    },
}

impl Stop {
    fn failure(self, name: &str) -> Failure {
        match self {
            Self::Refused(refusal) => Failure::refused(name, refusal),
            Self::Count { read, told } => Failure::Refused(format!(
                "{name}: {} came of it, and its header tells of {told}: do not use what was printed",
                counted(read, "pair")
            )),
        }
    }
}

impl From<Refusal> for Stop {
    fn from(refusal: Refusal) -> Self {
        Self::Refused(refusal)
    }
}

/// The pairs from an id on. Of a whole column there must be as many as its header tells of.
pub struct Pairs<'a> {
    column: Column<'a>,
    ids: Vec<u32>,
    values: Vec<i64>,
    /// The place of the next pair in the lists, and how many pairs are there.
    taken: usize,
    held: usize,
    /// The id that the next call reads from; none at the end.
    from: Option<u32>,
    /// How many pairs were read, where the whole column is.
    read: Option<u64>,
}

impl<'a> Pairs<'a> {
    fn from(column: Column<'a>, id: u32) -> Self {
        Self {
            column,
            ids: vec![0; ROOM],
            values: vec![0; ROOM],
            taken: 0,
            held: 0,
            from: Some(id),
            read: (id == 0).then_some(0),
        }
    }

    /// Reads on. Where no pair came, that was the end.
    fn fill(&mut self) -> Result<(), Stop> {
        let Some(from) = self.from.take() else {
            return Ok(());
        };
        let read = self
            .column
            .read_from(from, &mut self.ids, &mut self.values)?;
        (self.taken, self.held) = (0, read.count);
        if let Some(all) = &mut self.read {
            *all += read.count as u64;
        }
        if !read.ended {
            let last = self.ids[..read.count].last();
            self.from = last.map(|id| id + 1).filter(|&id| id <= MAX_ID);
        }
        match (self.from, self.read) {
            (None, Some(read)) if read != self.column.count() => {
                // The pairs of this call are not handed on.
                self.held = 0;
                let told = self.column.count();
                Err(Stop::Count { read, told })
            }
            _ => Ok(()),
        }
    }
}

impl Iterator for Pairs<'_> {
    type Item = Result<(u32, i64), Stop>;

    #[inline]
    fn next(&mut self) -> Option<Self::Item> {
        if self.taken == self.held {
            if let Err(stop) = self.fill() {
                return Some(Err(stop));
            }
            if self.taken == self.held {
                return None;
            }
        }
        let pair = (self.ids[self.taken], self.values[self.taken]);
        self.taken += 1;
        Some(Ok(pair))
    }
}

#[cfg(test)]
mod tests {
    use super::*;
    use signalfern::Edition;

    /// Ids of three blocks: some, every third, and all.
    fn ids() -> Vec<u32> {
        let some = (0..9000).map(|id| id * 7);
        let third = (0..20_000).map(|id| 65_536 + id * 3);
        some.chain(third).chain(131_072..196_608).collect()
    }

    #[test]
    fn the_pairs_of_the_list() {
        let ids = ids();
        let values: Vec<i64> = (ids.iter())
            .map(|&id| (i64::from(id) * 17 % 101 - 50).pow(3))
            .collect();
        for edition in [1, 2, 3, 4] {
            let edition = Edition::from_number(edition).unwrap();
            let bytes = signalfern::write_to_vec(&ids, &values, edition, 9).unwrap();
            let column = Column::open(&bytes).unwrap();
            assert_eq!(column.edition(), edition);
            for from in [0, 1, 63_000, 65_537, 131_071, 196_607, 196_608, MAX_ID] {
                let first = ids.partition_point(|&id| id < from);
                let list = ids[first..].iter().zip(&values[first..]);
                let list = list.map(|(&id, &value)| Ok((id, value)));
                assert!(Pairs::from(column, from).eq(list), "from {from}");
            }
        }
        let empty = signalfern::write_to_vec(&[], &[], Edition::Plain, 9).unwrap();
        assert!(Pairs::from(Column::open(&empty).unwrap(), 0)
            .next()
            .is_none());
    }

    /// The first entry of a block that is not there names the end block in place of the next one: the pairs end there.
    #[test]
    fn as_many_as_the_header_tells_of() {
        let values = vec![5; ids().len()];
        let mut bytes = signalfern::write_to_vec(&ids(), &values, Edition::Plain, 9).unwrap();
        let column = Column::open(&bytes).unwrap();
        let end = (column.start() + column.id_bytes()) as usize;
        let told = column.count();
        // Of the entries, the second is that of block 1, and the end block stands before the first.
        let blocks = column.id_bytes() as u32 - 8 * column.jump_count() as u32;
        let entry = end - 8 * (column.jump_count() as usize - 1);
        bytes[entry..entry + 4].copy_from_slice(&(told as u32).to_le_bytes());
        bytes[entry + 4..entry + 8].copy_from_slice(&(blocks - 6).to_le_bytes());
        let column = Column::open(&bytes).unwrap();
        let stop = Pairs::from(column, 0).find_map(Result::err);
        let failure = stop.expect("fewer pairs").failure("some.column");
        assert_eq!(
            stop,
            Some(Stop::Count {
                read: told - 20_000,
                told
            })
        );
        assert_eq!(failure.report(), crate::failure::REFUSED);
        // From an id on the count is not known.
        assert!(Pairs::from(column, 1).all(|pair| pair.is_ok()));
    }
}
