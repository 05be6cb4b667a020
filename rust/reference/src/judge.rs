//! A bare id section of another maker, judged (document 02, \[9\]).

use crate::ids::rank_bytes;
use crate::{power_allowed, MAX_JUMPS};

/// What is said of a section.
#[derive(Clone, Copy, Debug, PartialEq, Eq)]
pub enum Judgement {
    /// The section of a list of so many ids.
    Accepted(u64),
    /// A reason, 1 to 8 in document 02's order, and its place.
    Faulty(u64, usize),
    /// An entry count or a power outside the limits.
    Header,
}

const CUT_OFF: u64 = 1;
const BLOCK_ORDER: u64 = 2;
const PLACE_ORDER: u64 = 3;
const ONES: u64 = 4;
const RANK: u64 = 5;
const END_BLOCK: u64 = 6;
const JUMPS: u64 = 7;
const LEFT_OVER: u64 = 8;

/// The bytes, and in which order their shorts and ints are.
#[derive(Clone, Copy)]
struct Bytes<'a> {
    bytes: &'a [u8],
    high_first: bool,
}

impl Bytes<'_> {
    /// The number of `len` bytes at a place, if they are there.
    fn number(&self, at: usize, len: usize) -> Option<usize> {
        let bytes = self.bytes.get(at..at.checked_add(len)?)?;
        let join = |sum: usize, byte: &u8| sum << 8 | usize::from(*byte);
        Some(match self.high_first {
            true => bytes.iter().fold(0, join),
            false => bytes.iter().rev().fold(0, join),
        })
    }

    /// The number and the count of the block at a place, and where it would end, if its head is there.
    fn head(&self, at: usize, power: u32) -> Option<(usize, usize, usize)> {
        let number = self.number(at, 2)?;
        let count = self.number(at + 2, 2)? + 1;
        let data = match count {
            // The end block has six bytes.
            _ if number == 32_767 => 2,
            1..=4095 => 2 * count,
            4096..=65_535 => rank_bytes(power) + 8192,
            _ => 0,
        };
        Some((number, count, at + 4 + data))
    }

    /// The tests of the block at a place, in order; gives its number, its count and where it ends.
    fn block(&self, at: usize, least: usize, power: u32) -> Result<(usize, usize, usize), u64> {
        let (number, count, end) = self.head(at, power).ok_or(CUT_OFF)?;
        if end > self.bytes.len() {
            return Err(CUT_OFF);
        }
        if number == 32_767 {
            return Ok((number, count, end));
        }
        if number < least || number > 32_765 {
            return Err(BLOCK_ORDER);
        }
        if count < 4096 {
            let place = |index: usize| self.number(at + 4 + 2 * index, 2);
            if (1..count).any(|index| place(index) <= place(index - 1)) {
                return Err(PLACE_ORDER);
            }
        } else if count < 65_536 {
            let (table, bitmap) = self.bytes[at + 4..end].split_at(rank_bytes(power));
            let ones =
                |bytes: &[u8]| -> usize { bytes.iter().map(|b| b.count_ones() as usize).sum() };
            if ones(bitmap) != count {
                return Err(ONES);
            }
            // One entry to 2^p places, so to 2^(p - 3) bytes; high byte first in both orders.
            let stride = if power == 0 { 8192 } else { 1 << (power - 3) };
            let mut before = 0;
            for (entry, stride) in table.chunks(2).zip(bitmap.chunks(stride)) {
                if usize::from(entry[0]) << 8 | usize::from(entry[1]) != before {
                    return Err(RANK);
                }
                before += ones(stride);
            }
        }
        Ok((number, count, end))
    }
}

/// Judges a section with so many jump entries at a rank power.
pub fn judge_section(bytes: &[u8], jump_count: u64, power: u64, high_first: bool) -> Judgement {
    if jump_count > MAX_JUMPS || !power_allowed(power) {
        return Judgement::Header;
    }
    match judged(
        Bytes { bytes, high_first },
        jump_count as usize,
        power as u32,
    ) {
        Ok(ids) => Judgement::Accepted(ids as u64),
        Err((reason, place)) => Judgement::Faulty(reason, place),
    }
}

fn judged(section: Bytes, jump_count: usize, power: u32) -> Result<usize, (u64, usize)> {
    let (mut at, mut ids, mut next) = (0, 0, 0);
    let end = loop {
        let block = section.block(at, next, power);
        let (number, count, end) = block.map_err(|reason| (reason, at))?;
        if number == 32_767 {
            break end;
        }
        (at, ids, next) = (end, ids + count, number + 1);
    };
    if section.number(at + 2, 2) != Some(0) || section.number(at + 4, 2) != Some(65_535) {
        return Err((END_BLOCK, at));
    }
    // Entries for 0 to B + 1; two are written as none.
    let entries = match next + 1 {
        2 => 0,
        entries => entries,
    };
    if jump_count != entries {
        return Err((JUMPS, end));
    }
    let (mut start, mut before) = (0, 0);
    for index in 0..entries {
        // A missing block has the entry of the next one written; the end block is the last.
        while start < at {
            let (number, count, after) = section.head(start, power).expect("it was tested");
            if number >= index {
                break;
            }
            (start, before) = (after, before + count);
        }
        let place = end + 8 * index;
        let (told_ids, told_start) = (section.number(place, 4), section.number(place + 4, 4));
        if (told_ids, told_start) != (Some(before), Some(start)) {
            return Err((JUMPS, place));
        }
    }
    let end = end + 8 * entries;
    if end < section.bytes.len() {
        return Err((LEFT_OVER, end));
    }
    Ok(ids)
}
