//! The runs of values of edition 3, as the tool reads their directory to explain a file.

use std::ops::Range;

use signalfern::RUN_LENGTH;

/// Values in a run; the last one may have fewer.
pub const LENGTH: u64 = RUN_LENGTH as u64;
/// Bytes of a run in the directory: smallest, greatest and start, eight each, and the width.
pub const ENTRY: u64 = 25;
/// Where in them the numbers stand.
pub const SMALLEST: u64 = 0;
pub const GREATEST: u64 = 8;
pub const START: u64 = 16;
pub const WIDTH: u64 = 24;

/// How many runs so many values make.
pub fn count_of(values: u64) -> u64 {
    values.div_ceil(LENGTH)
}

/// The bytes of the directory of so many values.
pub fn directory_bytes(values: u64) -> u64 {
    ENTRY * count_of(values)
}

/// A run, as the directory tells it.
#[derive(Clone, Copy, Debug, PartialEq, Eq)]
pub struct Run {
    /// Which it is, from 0.
    pub index: u64,
    /// How many values it has.
    pub count: u64,
    pub smallest: i64,
    pub greatest: i64,
    /// Where its bytes start, counted from the end of the directory.
    pub start: u64,
    pub width: u64,
}

impl Run {
    /// The run with this index of a column of so many values, if its entry is there.
    pub fn at(values: u64, section: &[u8], index: u64) -> Option<Self> {
        let left = values.checked_sub(LENGTH * index).filter(|&it| it > 0)?;
        let entry = section.get(usize::try_from(ENTRY * index).ok()?..)?;
        let entry = entry.get(..ENTRY as usize)?;
        let eight = |at: u64| entry[at as usize..].first_chunk().copied();
        Some(Self {
            index,
            count: left.min(LENGTH),
            smallest: i64::from_le_bytes(eight(SMALLEST)?),
            greatest: i64::from_le_bytes(eight(GREATEST)?),
            start: u64::from_le_bytes(eight(START)?),
            width: u64::from(entry[WIDTH as usize]),
        })
    }

    /// The runs of a column of so many values, as far as the directory is there.
    pub fn all(values: u64, section: &[u8]) -> impl Iterator<Item = Self> + '_ {
        (0..count_of(values)).map_while(move |index| Self::at(values, section, index))
    }

    /// The ordinal of its first value.
    pub fn first(&self) -> u64 {
        LENGTH * self.index
    }

    /// Where its entry stands in the section.
    pub fn entry(&self) -> u64 {
        ENTRY * self.index
    }

    /// The bytes that its values take.
    pub fn bytes(&self) -> u64 {
        (self.count * self.width).div_ceil(8)
    }

    /// The bits of one of its values, counted from the section's first; if such numbers there can be.
    pub fn bits(&self, values: u64, index: u64) -> Option<Range<usize>> {
        let start = directory_bytes(values).checked_add(self.start)?;
        let first = start.checked_mul(8)?.checked_add(index * self.width)?;
        let end = first.checked_add(self.width)?;
        Some(usize::try_from(first).ok()?..usize::try_from(end).ok()?)
    }
}

#[cfg(test)]
mod tests {
    use signalfern::{Column, Edition};

    use super::*;

    #[test]
    fn a_directory() {
        let ids: Vec<u32> = (0..40_000).collect();
        let values = ids.iter().map(|&id| match id {
            0..16_384 => -7,
            16_384..32_768 => i64::from(id % 5) - 2,
            _ => i64::MIN + i64::from(id),
        });
        let values: Vec<i64> = values.collect();
        let column = signalfern::write_to_vec(&ids, &values, Edition::Runs, 9).unwrap();
        let section = column.len() - Column::open(&column).unwrap().value_bytes() as usize;
        let section = &column[section..];
        let runs: Vec<Run> = Run::all(40_000, section).collect();
        let found: Vec<_> = (runs.iter())
            .map(|run| (run.count, run.smallest, run.greatest, run.start, run.width))
            .collect();
        // 5 values need 3 bits; 7232 in a row need 13.
        let last = i64::MIN + 32_768;
        assert_eq!(
            found,
            [
                (16_384, -7, -7, 0, 0),
                (16_384, -2, 2, 0, 3),
                (7232, last, last + 7231, 6144, 13),
            ]
        );
        assert_eq!(
            (runs[2].first(), runs[2].entry(), runs[2].bytes()),
            (32_768, 50, 11_752)
        );
        assert_eq!(section.len(), 75 + 6144 + 11_752);
        assert_eq!(runs[2].bits(40_000, 2), Some(49_778..49_791));
        // A directory that is cut off.
        assert_eq!(Run::all(40_000, &section[..74]).count(), 2);
        assert_eq!(Run::at(40_000, section, 3), None);
        assert_eq!(Run::all(0, &[]).count(), 0);
        let far = Run {
            start: u64::MAX,
            ..runs[1]
        };
        assert_eq!(far.bits(40_000, 0), None);
    }
}
