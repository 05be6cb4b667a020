//! The pair with an ordinal: the look-up's steps the other way round.

use crate::ids::{data_bytes, rank_bytes, short, Kind, LAST_NUMBER};
use crate::look_up::int;
use crate::values::value_at;
use crate::{open, Candidate, Column, Next, Refusal};

/// The pair with this ordinal, or none, for an ordinal of n or more.
pub fn pair_at(bytes: &[u8], ordinal: u64) -> Next {
    steps(&open(bytes)?, bytes, ordinal)
}

/// The same in a column opened before. Any numbers may stand in the column, as in a look-up.
pub fn pair_at_in(column: &Column, bytes: &[u8], ordinal: u64) -> Next {
    column.opens(bytes)?;
    steps(column, bytes, ordinal)
}

fn steps(column: &Column, bytes: &[u8], ordinal: u64) -> Next {
    if ordinal >= column.count {
        return Ok(None);
    }
    let (section, values) = column.sections(bytes);
    let jump_count = column.jump_count as usize;
    let (blocks, jumps) = section.split_at(section.len() - 8 * jump_count);
    // The last jump entry whose ordinal is at or below; with none, the first block.
    let b = last(jump_count, |j| int(&jumps[8 * j..]) <= ordinal);
    let (before, start) = match jump_count {
        0 => (0, 0),
        _ => (int(&jumps[8 * b..]), int(&jumps[8 * b + 4..]) as usize),
    };
    // Step 2, and the block's number: the entry's, or any within the limit.
    let head = blocks.get(start..start + 4).ok_or(Refusal::BROKEN)?;
    let (k, count) = (short(head), usize::from(short(&head[2..])) + 1);
    if k > LAST_NUMBER || jump_count > 0 && usize::from(k) != b {
        return Err(Refusal::BROKEN);
    }
    // Step 4, and that the ordinal is one of the block's.
    let power = column.power as u32;
    let data = blocks[start + 4..]
        .get(..data_bytes(count, power))
        .ok_or(Refusal::BROKEN)?;
    let end = before + count as u64;
    if end > column.count || !(before..end).contains(&ordinal) {
        return Err(Refusal::BROKEN);
    }
    let place = place_with(data, count, power, (ordinal - before) as usize);
    let place = place.ok_or(Refusal::BROKEN)?;
    let value = value_at(column, values, ordinal as usize).ok_or(Refusal::BROKEN)?;
    let id = u32::from(k) << 16 | u32::from(place);
    Ok(Some(Candidate { id, ordinal, value }))
}

/// Of `n` numbers, by halving: the last that is at or below the one sought, where they ascend.
fn last(n: usize, at_or_below: impl Fn(usize) -> bool) -> usize {
    let (mut lo, mut hi) = (0, n);
    while lo + 1 < hi {
        let probe = (lo + hi) / 2;
        if at_or_below(probe) {
            lo = probe;
        } else {
            hi = probe;
        }
    }
    lo
}

/// The place with this index in a block.
fn place_with(data: &[u8], count: usize, power: u32, index: usize) -> Option<u16> {
    match Kind::of(count) {
        Kind::Sparse => Some(short(&data[2 * index..])),
        Kind::Dense => {
            let (ranks, bitmap) = data.split_at(rank_bytes(power));
            let rank_of =
                |q: usize| usize::from(u16::from_be_bytes([ranks[2 * q], ranks[2 * q + 1]]));
            // The last stride whose rank is at or below; without ranks the block is one stride.
            let (first, places, rank) = match power {
                0 => (0, 65536, 0),
                _ => {
                    let stride = last(ranks.len() / 2, |q| rank_of(q) <= index);
                    (stride << power, 1 << power, rank_of(stride))
                }
            };
            let others = index.checked_sub(rank)?;
            (first..first + places)
                .filter(|x| bitmap[x / 8] >> (x % 8) & 1 == 1)
                .nth(others)
                .map(|x| x as u16)
        }
        Kind::All => Some(index as u16),
    }
}
