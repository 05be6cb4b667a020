//! "The look-up, step by step".

use crate::ids::{data_bytes, rank_bytes, short, Kind};
use crate::sparse::{halve, scan};
use crate::values::value_at;
use crate::{open, Answer, Column, Refusal, MAX_ID};

/// Looks one id up.
pub fn look_up(bytes: &[u8], id: u32) -> Result<Answer, Refusal> {
    if id > MAX_ID {
        return Err(Refusal::ID);
    }
    steps(&open(bytes)?, bytes, id, halve)
}

/// Looks one id up in a column opened before. Any numbers may stand in the column: they are held
/// to the header rules and to the byte count first.
pub fn look_up_in(column: &Column, bytes: &[u8], id: u32) -> Result<Answer, Refusal> {
    if id > MAX_ID {
        return Err(Refusal::ID);
    }
    column.opens(bytes)?;
    steps(column, bytes, id, halve)
}

/// The steps for an id within the limit. `step_5` gives the index of a place among a sparse block's
/// entries and the probes: the look-up's own or document 01's.
#[inline]
pub(crate) fn steps(
    column: &Column,
    bytes: &[u8],
    id: u32,
    step_5: impl Fn(&[u8], u16) -> (Option<usize>, u64),
) -> Result<Answer, Refusal> {
    let (section, values) = column.sections(bytes);
    let (b, r) = ((id >> 16) as u16, id as u16);
    let Some(block) = Block::at_entry(column, section, b)? else {
        return Ok(Answer::Absent {
            words: 0,
            probes: 0,
        });
    };
    let (inner, words, probes) = match Kind::of(block.count) {
        Kind::Sparse => {
            let (inner, probes) = step_5(block.data, r);
            (inner, 0, probes)
        }
        Kind::Dense => {
            let (inner, words) = dense_place(block.data, column.power as u32, r);
            (inner, words, 0)
        }
        Kind::All => (Some(usize::from(r)), 0, 0),
    };
    let Some(inner) = inner else {
        return Ok(Answer::Absent { words, probes });
    };
    let (ordinal, value) = block.pair(column, values, inner)?;
    Ok(Answer::Found {
        ordinal,
        value,
        words,
        probes,
    })
}

/// Step 5 as document 01 has it: no entry is probed.
pub(crate) fn scanned(entries: &[u8], r: u16) -> (Option<usize>, u64) {
    (scan(entries, r), 0)
}

pub(crate) fn int(bytes: &[u8]) -> u64 {
    u64::from(u32::from_le_bytes([bytes[0], bytes[1], bytes[2], bytes[3]]))
}

/// A block: how many ids lie before it, its count, and the bytes after its head.
pub(crate) struct Block<'a> {
    ordinal: u64,
    pub count: usize,
    pub data: &'a [u8],
}

impl<'a> Block<'a> {
    /// Steps 1 to 4, which do not go by the place. None where another block than `b` stands at the
    /// entry of `b`, and all its ids are absent.
    #[inline]
    pub fn at_entry(column: &Column, section: &'a [u8], b: u16) -> Result<Option<Self>, Refusal> {
        let jump_count = column.jump_count as usize;
        let (blocks, jumps) = section.split_at(section.len() - 8 * jump_count);
        // 1: the ordinal and the start.
        let (ordinal, start) = match jump_count.checked_sub(1) {
            None => (0, 0),
            Some(last) => {
                let entry = &jumps[8 * last.min(usize::from(b))..];
                (int(entry), int(&entry[4..]) as usize)
            }
        };
        // 2: block number and count.
        let head = blocks.get(start..start + 4).ok_or(Refusal::BROKEN)?;
        let (k, count) = (short(head), usize::from(short(&head[2..])) + 1);
        // 3: another block.
        if jump_count > 0 && k < b {
            return Err(Refusal::BROKEN);
        }
        if k != b {
            return Ok(None);
        }
        // 4: the block's data and its ordinals.
        let data = blocks[start + 4..]
            .get(..data_bytes(count, column.power as u32))
            .ok_or(Refusal::BROKEN)?;
        if ordinal + count as u64 > column.count {
            return Err(Refusal::BROKEN);
        }
        Ok(Some(Self {
            ordinal,
            count,
            data,
        }))
    }

    /// The end of step 6, and step 7: the ordinal and the value of an inner place.
    #[inline]
    pub fn pair(
        &self,
        column: &Column,
        values: &[u8],
        inner: usize,
    ) -> Result<(u64, i64), Refusal> {
        if inner >= self.count {
            return Err(Refusal::BROKEN);
        }
        let ordinal = self.ordinal + inner as u64;
        let value = value_at(column, values, ordinal as usize).ok_or(Refusal::BROKEN)?;
        Ok((ordinal, value))
    }
}

/// A word of a bitmap.
pub(crate) fn word_at(bitmap: &[u8], i: usize) -> u64 {
    let bytes = &bitmap[8 * i..8 * i + 8];
    u64::from_le_bytes(bytes.try_into().expect("eight bytes"))
}

/// The index of `r`, if its bit is set, and the words counted.
pub(crate) fn dense_place(data: &[u8], power: u32, r: u16) -> (Option<usize>, u64) {
    let (ranks, bitmap) = data.split_at(rank_bytes(power));
    let (own, bit) = (usize::from(r / 64), r % 64);
    let word = word_at(bitmap, own);
    if word >> bit & 1 == 0 {
        return (None, 1);
    }
    let (rank, first) = if power == 0 {
        (0, 0)
    } else {
        let stride = usize::from(r) >> power;
        let rank = u16::from_be_bytes([ranks[2 * stride], ranks[2 * stride + 1]]);
        (usize::from(rank), stride << (power - 6))
    };
    let before: u32 = (first..own).map(|i| word_at(bitmap, i).count_ones()).sum();
    let below = (word & ((1 << bit) - 1)).count_ones();
    let words = (own - first + 1) as u64;
    (Some(rank + (before + below) as usize), words)
}
