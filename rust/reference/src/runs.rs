//! "Value blocks with a summary" (document 02, [11]): the value section of edition 3, and its question.

use core::ops::Range;

use crate::header::take_number;
use crate::values::{
    divisor_of, fetch, least_width, pack, section_bytes, spare_clear, sum, Edition,
};
use crate::{open, Column, Refusal, MAX_WIDTH};

/// Values in a run; the last one may have fewer.
const RUN: usize = 16_384;
/// Bytes of a run in the directory.
const ENTRY: usize = 25;

/// Bytes of the directory of so many values.
pub(crate) fn directory_bytes(count: u64) -> u64 {
    count.div_ceil(RUN as u64) * ENTRY as u64
}

/// What the directory says of a run: its smallest and its greatest value and its byte start after the
/// directory, 8 bytes each, low first; then one byte of width.
#[derive(Clone, Copy)]
struct Summary {
    smallest: i64,
    greatest: i64,
    start: u64,
    width: u8,
}

impl Summary {
    /// What the writer says of these values, of which there is one at least.
    fn of(run: &[i64], divisor: u64, start: u64) -> Self {
        let (mut smallest, mut greatest) = (run[0], run[0]);
        for &value in run {
            smallest = smallest.min(value);
            greatest = greatest.max(value);
        }
        Self {
            smallest,
            greatest,
            start,
            width: least_width(greatest.abs_diff(smallest) / divisor) as u8,
        }
    }

    #[inline]
    fn read(entry: &[u8]) -> Self {
        let eight = |at: usize| *entry[at..].first_chunk().expect("25 bytes");
        Self {
            smallest: i64::from_le_bytes(eight(0)),
            greatest: i64::from_le_bytes(eight(8)),
            start: u64::from_le_bytes(eight(16)),
            width: entry[24],
        }
    }

    fn write(&self, entry: &mut [u8]) {
        entry[..8].copy_from_slice(&self.smallest.to_le_bytes());
        entry[8..16].copy_from_slice(&self.greatest.to_le_bytes());
        entry[16..24].copy_from_slice(&self.start.to_le_bytes());
        entry[24] = self.width;
    }

    /// Bytes of so many stored numbers.
    fn bytes(&self, count: usize) -> u64 {
        section_bytes(count as u64, self.width.into())
    }

    /// Its bytes, where they are there.
    fn own<'a>(&self, packed: &'a [u8], count: usize) -> &'a [u8] {
        &packed[self.start as usize..][..self.bytes(count) as usize]
    }

    /// Stored number `k` of the run. None for a width above 64, or where it reaches past the section;
    /// width 0 reaches nowhere.
    #[inline]
    fn stored(&self, packed: &[u8], k: usize) -> Option<u64> {
        if u64::from(self.width) > MAX_WIDTH {
            return None;
        }
        if self.width == 0 {
            return Some(0);
        }
        let end = self.start.checked_add(self.bytes(k + 1))?;
        let within = end <= packed.len() as u64;
        within.then(|| fetch(&packed[self.start as usize..], self.width.into(), k))
    }

    /// Step 7, with the run's smallest value. None is BROKEN.
    #[inline]
    fn value(&self, divisor: u64, packed: &[u8], k: usize) -> Option<i64> {
        sum(self.smallest, divisor, self.stored(packed, k)?)
    }

    /// The values of a run of so many; where they take no bits, one for all.
    fn values(
        self,
        divisor: u64,
        packed: &[u8],
        count: usize,
    ) -> impl Iterator<Item = Option<i64>> + '_ {
        let told = if self.width == 0 { 1 } else { count };
        (0..told).map(move |k| self.value(divisor, packed, k))
    }

    /// Whether the entry and the bits are what the writer makes of the run's values with this divisor,
    /// but for the start.
    fn sound(&self, divisor: u64, packed: &[u8], count: usize) -> bool {
        let (mut smallest, mut greatest) = (i64::MAX, i64::MIN);
        for value in self.values(divisor, packed, count) {
            let Some(value) = value else {
                return false;
            };
            smallest = smallest.min(value);
            greatest = greatest.max(value);
        }
        (smallest, greatest) == (self.smallest, self.greatest)
            && least_width(greatest.abs_diff(smallest) / divisor) == u32::from(self.width)
            && spare_clear(self.own(packed, count), count, self.width.into())
    }
}

/// The directory of a section, and what stands after it.
#[inline]
fn parts<'a>(column: &Column, section: &'a [u8]) -> (&'a [u8], &'a [u8]) {
    section.split_at(directory_bytes(column.count) as usize)
}

/// Each run: what the directory says of it, and its ordinals.
fn runs(directory: &[u8], count: u64) -> impl Iterator<Item = (Summary, Range<usize>)> + '_ {
    let ordinals = move |run: usize| RUN * run..(RUN * (run + 1)).min(count as usize);
    (directory.chunks_exact(ENTRY).enumerate())
        .map(move |(run, entry)| (Summary::read(entry), ordinals(run)))
}

/// The runs of these values as the writer lays them down: the first starts at 0, and each later one on
/// the first byte after the run before.
fn laid_down(values: &[i64], divisor: u64) -> impl Iterator<Item = (Summary, &[i64])> {
    let mut start = 0;
    values.chunks(RUN).map(move |run| {
        let summary = Summary::of(run, divisor, start);
        start += summary.bytes(run.len());
        (summary, run)
    })
}

/// V of these values: it counts the directory.
pub(crate) fn value_bytes(values: &[i64], divisor: u64) -> u64 {
    let packed = laid_down(values, divisor).map(|(summary, run)| summary.bytes(run.len()));
    directory_bytes(values.len() as u64) + packed.sum::<u64>()
}

/// Writes the section; `out` has exactly its bytes.
pub(crate) fn write(values: &[i64], divisor: u64, out: &mut [u8]) {
    let (directory, packed) = out.split_at_mut(directory_bytes(values.len() as u64) as usize);
    let entries = directory.chunks_exact_mut(ENTRY);
    for (entry, (summary, run)) in entries.zip(laid_down(values, divisor)) {
        summary.write(entry);
        let own = &mut packed[summary.start as usize..][..summary.bytes(run.len()) as usize];
        let stored = |value: i64| value.abs_diff(summary.smallest) / divisor;
        if summary.width > 0 {
            pack(own, summary.width.into(), run, stored);
        }
    }
}

/// The value of an ordinal below n. None is BROKEN.
#[inline]
pub(crate) fn value_at(column: &Column, section: &[u8], ordinal: usize) -> Option<i64> {
    let (directory, packed) = parts(column, section);
    let summary = Summary::read(&directory[ENTRY * (ordinal / RUN)..]);
    summary.value(column.divisor, packed, ordinal % RUN)
}

/// All values, of a section known to be sound.
pub(crate) fn read(column: &Column, section: &[u8], values: &mut [i64]) {
    for (ordinal, value) in values.iter_mut().enumerate() {
        *value = value_at(column, section, ordinal).expect("a sound section");
    }
}

/// Whether the section, with the header's divisor, is what the writer makes of the values that it
/// stands for.
pub(crate) fn sound(column: &Column, section: &[u8]) -> bool {
    let (directory, packed) = parts(column, section);
    let runs = || runs(directory, column.count);
    let mut start = 0;
    for (summary, ordinals) in runs() {
        let in_place = summary.start == start;
        if !in_place || !summary.sound(column.divisor, packed, ordinals.len()) {
            return false;
        }
        start += summary.bytes(ordinals.len());
    }
    let values = runs().flat_map(|(summary, ordinals)| {
        let values = summary.values(column.divisor, packed, ordinals.len());
        values.flatten()
    });
    // Nothing stands after the last run, and one divisor serves them all.
    start == packed.len() as u64 && divisor_of(values) == column.divisor
}

/// The first ordinal with a value from `low` to `high`, by the directory of a column of edition 3.
pub fn first_between(bytes: &[u8], low: i64, high: i64) -> Between {
    first_between_from(bytes, 0, low, high)
}

/// The same in a column opened before. Any numbers may stand in the column, as in a look-up; the
/// edition comes first, as in a header.
pub fn first_between_in(column: &Column, bytes: &[u8], low: i64, high: i64) -> Between {
    first_between_from_in(column, bytes, 0, low, high)
}

/// The same question from an ordinal on. None for an ordinal of n or more.
pub fn first_between_from(bytes: &[u8], from: u64, low: i64, high: i64) -> Between {
    let edition = take_number(bytes, &mut 0)?;
    if Edition::numbered(edition) != Some(Edition::Runs) {
        return Err(Refusal::EDITION);
    }
    run_by_run(&open(bytes)?, bytes, from, low, high)
}

/// The same in a column opened before.
pub fn first_between_from_in(
    column: &Column,
    bytes: &[u8],
    from: u64,
    low: i64,
    high: i64,
) -> Between {
    if Edition::numbered(column.edition) != Some(Edition::Runs) {
        return Err(Refusal::EDITION);
    }
    column.opens(bytes)?;
    run_by_run(column, bytes, from, low, high)
}

/// An ordinal, none, or a refusal.
pub type Between = Result<Option<u64>, Refusal>;

fn run_by_run(column: &Column, bytes: &[u8], from: u64, low: i64, high: i64) -> Between {
    if low > high || from >= column.count {
        return Ok(None);
    }
    let from = from as usize;
    let (_, section) = column.sections(bytes);
    let (directory, packed) = parts(column, section);
    for (summary, ordinals) in runs(directory, column.count) {
        if ordinals.end <= from {
            // A run before the ordinal's.
            continue;
        }
        if summary.smallest > high || summary.greatest < low {
            // Skipped unread.
            continue;
        }
        for (k, ordinal) in ordinals
            .enumerate()
            .skip_while(|&(_, ordinal)| ordinal < from)
        {
            let value = summary.value(column.divisor, packed, k);
            let value = value.ok_or(Refusal::BROKEN)?;
            if (low..=high).contains(&value) {
                return Ok(Some(ordinal as u64));
            }
        }
    }
    Ok(None)
}
