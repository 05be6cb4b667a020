//! Columns of edition 3 (document 02, [11]), the entries of their directory, and what a list answers.

use signalfern::{Edition, Refusal};
use signalfern_reference::Answer;

use super::parts::Parts;
use super::{same, Random};

/// Values in a run.
pub const RUN: usize = 16_384;
/// Bytes of a run in the directory.
pub const ENTRY: usize = 25;

/// A number of an entry: where it stands there, and its bytes.
#[derive(Clone, Copy, Debug, PartialEq, Eq)]
pub enum Number {
    Smallest,
    Greatest,
    Start,
    Width,
}

impl Number {
    pub const EACH: [Self; 4] = [Self::Smallest, Self::Greatest, Self::Start, Self::Width];

    fn bytes(self) -> std::ops::Range<usize> {
        match self {
            Self::Smallest => 0..8,
            Self::Greatest => 8..16,
            Self::Start => 16..24,
            Self::Width => 24..25,
        }
    }
}

/// A number in the directory.
pub fn number(parts: &Parts, run: usize, number: Number) -> u64 {
    let entry = &parts.values[ENTRY * run..][..ENTRY];
    let bytes = entry[number.bytes()].iter().rev();
    bytes.fold(0, |number, &byte| number << 8 | u64::from(byte))
}

/// The column with another number there.
pub fn with(parts: &Parts, run: usize, number: Number, other: u64) -> Parts {
    let mut changed = parts.clone();
    let entry = &mut changed.values[ENTRY * run..][..ENTRY];
    let len = number.bytes().len();
    entry[number.bytes()].copy_from_slice(&other.to_le_bytes()[..len]);
    changed
}

/// Every second id from 0 on, as many as there are values.
pub fn ids(count: usize) -> Vec<u32> {
    (0..count as u32).map(|i| 2 * i).collect()
}

/// The column of these values, at those ids.
pub fn column(values: &[i64]) -> Vec<u8> {
    same::write_exactly(&ids(values.len()), values, Edition::Runs, 9)
}

/// As many values, in runs of which each has a width of its own.
pub fn some_values(random: &mut Random, count: usize) -> Vec<i64> {
    let mut values = Vec::with_capacity(count);
    while values.len() < count {
        let width = random.pick(&[0, 1, 2, 3, 7, 8, 13, 31, 40, 63, 64]);
        let low = random.pick(&[-9, 0, 5, 1 << 40, i64::MIN]);
        let len = RUN.min(count - values.len());
        values.extend((0..len).map(|_| {
            let stored = random.next().checked_shr(64 - width).unwrap_or(0);
            low.wrapping_add_unsigned(stored)
        }));
    }
    values
}

/// What a plain scan of the list answers.
pub fn scanned(values: &[i64], low: i64, high: i64) -> Option<u64> {
    let index = values
        .iter()
        .position(|&value| low <= value && value <= high);
    index.map(|index| index as u64)
}

/// The value of an ordinal by a look-up, or the refusal.
#[track_caller]
pub fn value(bytes: &[u8], ordinal: usize) -> Result<i64, Refusal> {
    match same::look_up(bytes, 2 * ordinal as u32)? {
        Answer::Found {
            ordinal: o, value, ..
        } => {
            assert_eq!(o, ordinal as u64);
            Ok(value)
        }
        Answer::Absent { .. } => panic!("ordinal {ordinal} is listed"),
    }
}

/// Ordinals at the borders of runs, and some between them.
pub fn ordinals(count: usize) -> Vec<usize> {
    let borders = [
        0,
        1,
        7,
        RUN - 1,
        RUN,
        RUN + 1,
        2 * RUN - 1,
        2 * RUN,
        2 * RUN + 5,
    ];
    let last = [count.saturating_sub(2), count.saturating_sub(1)];
    let mut ordinals: Vec<usize> = borders.into_iter().chain(last).collect();
    ordinals.retain(|&ordinal| ordinal < count);
    ordinals
}

/// Three runs: 16384 times 7; the smallest and the greatest value there are, and 0; then 0 to 3. Their
/// widths are 0, 64 and 2.
pub fn side_by_side() -> Vec<i64> {
    let mut values = vec![7; RUN];
    values.extend([i64::MIN, 0, i64::MAX].iter().cycle().take(RUN));
    values.extend((0..7232).map(|i| i % 4));
    values
}
