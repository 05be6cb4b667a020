//! The table of edition 4 and the codes after it, as the tool reads them to explain a file.

use std::ops::Range;

use signalfern::MAX_TABLE;

use crate::header::Header;
use crate::packing::{Packing, Stored};

/// The entries of a table: so many at least, and at most.
pub const LEAST: u64 = 2;
pub const MOST: u64 = MAX_TABLE as u64;
/// Bytes of an entry.
const ENTRY: u64 = 8;

/// The bits of a code, of so many entries.
pub fn width_for(entries: u64) -> u64 {
    Packing::Table.least_width(entries.saturating_sub(1))
}

/// The bytes of a table of so many entries.
pub fn table_bytes(entries: u64) -> u64 {
    ENTRY * entries
}

/// Where an entry stands in the section.
pub fn entry_at(code: usize) -> usize {
    ENTRY as usize * code
}

/// A value section of edition 4.
pub struct Coded<'a> {
    /// The entries, as far as they are there.
    pub table: Vec<i64>,
    /// How many values the header tells of, and entries.
    pub count: u64,
    pub entries: u64,
    pub width: u64,
    /// The bytes of the codes, as far as they are there.
    pub packed: &'a [u8],
}

impl<'a> Coded<'a> {
    /// Of a header that keeps the rules, and the bytes of a file, or the first of them.
    pub fn of(header: &Header, bytes: &'a [u8]) -> Self {
        let section = header.values_in(bytes);
        Self::new(header.count, header.width, header.divisor, section)
    }

    /// Of so many values, with codes of so many bits and a table of so many entries.
    pub fn new(count: u64, width: u64, entries: u64, section: &'a [u8]) -> Self {
        let table = section.len().min(table_bytes(entries) as usize);
        let (table, packed) = section.split_at(table);
        let value = |entry: &[u8]| entry.first_chunk().map(|&eight| i64::from_le_bytes(eight));
        Self {
            table: (table.chunks_exact(ENTRY as usize).filter_map(value)).collect(),
            count,
            entries,
            width,
            packed,
        }
    }

    /// The codes in order, as far as they are there.
    pub fn codes(&self) -> impl Iterator<Item = u64> + 'a {
        let mut stored = Stored::new(self.packed, Packing::Table, self.width as u32);
        (0..self.count).map_while(move |_| stored.next())
    }

    /// The bits of a code, counted from the section's first.
    pub fn bits(&self, ordinal: u64) -> Range<usize> {
        let first = 8 * table_bytes(self.entries) + ordinal * self.width;
        first as usize..(first + self.width) as usize
    }

    /// How many values have each entry that is there, and how many have a code without one.
    pub fn uses(&self) -> (Vec<u64>, u64) {
        let (mut uses, mut without) = (vec![0; self.table.len()], 0);
        for code in self.codes() {
            match uses.get_mut(code as usize) {
                Some(count) => *count += 1,
                None => without += 1,
            }
        }
        (uses, without)
    }
}

#[cfg(test)]
mod tests {
    use super::*;

    #[test]
    fn a_table_and_its_codes() {
        for (entries, width) in [(2, 1), (3, 2), (4, 2), (5, 3), (128, 7), (129, 8), (256, 8)] {
            assert_eq!(width_for(entries), width);
        }
        let (ids, values) = ([0, 2, 7, 9], [1, i64::MIN, 0, 1]);
        let column = signalfern::write_planned_to_vec(&ids, &values, &[i64::MIN, 0, 1], 9);
        let column = column.unwrap();
        let header = Header::parse(&column).unwrap();
        let coded = Coded::of(&header, &column);
        assert_eq!(coded.table, [i64::MIN, 0, 1]);
        assert!(coded.codes().eq([2, 0, 1, 2]));
        assert_eq!(coded.uses(), (vec![1, 1, 2], 0));
        // 24 bytes of table.
        assert_eq!(coded.bits(3), 198..200);
        // Cut off within the table, and before it.
        let coded = Coded::of(&header, &column[..column.len() - 3]);
        assert_eq!(coded.table, [i64::MIN, 0]);
        assert_eq!((coded.codes().count(), coded.packed.len()), (0, 0));
        assert!(Coded::of(&header, &column[..9]).table.is_empty());
        // A code past the table.
        let mut other = column.clone();
        *other.last_mut().unwrap() = 0b10_11_01_10;
        assert_eq!(Coded::of(&header, &other).uses(), (vec![0, 1, 2], 1));
    }
}
