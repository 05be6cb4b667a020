//! "The next scored candidate" (document 02, [1]).
//!
//! A cursor is the last target answered, and a new one is 0: no target lies below it.

use crate::ids::{rank_bytes, short, Kind, LAST_NUMBER};
use crate::look_up::{dense_place, scanned, steps, word_at, Block};
use crate::{open, Answer, Column, Refusal, MAX_ID};

/// A listed id.
#[derive(Clone, Copy, Debug, PartialEq, Eq)]
pub struct Candidate {
    /// The id.
    pub id: u32,
    /// How many listed ids lie below it.
    pub ordinal: u64,
    /// Its value.
    pub value: i64,
}

/// A candidate, none, or a refusal.
pub type Next = Result<Option<Candidate>, Refusal>;

/// The first listed id at or above the target. The cursor is moved to the target, unless the call
/// refuses.
pub fn next(cursor: &mut u32, bytes: &[u8], target: u32) -> Next {
    answered(cursor, target, || by_blocks(&open(bytes)?, bytes, target))
}

/// The same in a column opened before. Any numbers may stand in the column, as in a look-up.
pub fn next_in(column: &Column, cursor: &mut u32, bytes: &[u8], target: u32) -> Next {
    answered(cursor, target, || {
        column.opens(bytes)?;
        by_blocks(column, bytes, target)
    })
}

/// The same as document 02 words it: the look-up's steps, step 5 with document 01's scan, taken for
/// the target and each id above it in turn. There may be two thousand million of them.
pub fn next_by_each_id(cursor: &mut u32, bytes: &[u8], target: u32) -> Next {
    answered(cursor, target, || {
        let column = open(bytes)?;
        for id in target..=MAX_ID {
            // The first not absent gives the answer or the refusal.
            if let Answer::Found { ordinal, value, .. } = steps(&column, bytes, id, scanned)? {
                return Ok(Some(Candidate { id, ordinal, value }));
            }
        }
        Ok(None)
    })
}

/// What the plain pair list answers.
pub fn next_listed(cursor: &mut u32, ids: &[u32], values: &[i64], target: u32) -> Next {
    answered(cursor, target, || {
        let index = ids.partition_point(|&id| id < target);
        Ok(ids.get(index).map(|&id| Candidate {
            id,
            ordinal: index as u64,
            value: values[index],
        }))
    })
}

/// 14, then 16, then what `answer` gives. None is an answer too, and a refusal keeps the cursor.
#[inline]
fn answered(cursor: &mut u32, target: u32, answer: impl FnOnce() -> Next) -> Next {
    if target > MAX_ID {
        return Err(Refusal::ID);
    }
    if target < *cursor {
        return Err(Refusal::BACK);
    }
    let answer = answer()?;
    *cursor = target;
    Ok(answer)
}

/// Steps 1 to 4 are the same for all ids of a block: they are taken once for each block.
fn by_blocks(column: &Column, bytes: &[u8], target: u32) -> Next {
    let (section, values) = column.sections(bytes);
    let mut r = target as u16;
    for b in (target >> 16) as u16..=LAST_NUMBER {
        if let Some(block) = Block::at_entry(column, section, b)? {
            if let Some((place, inner)) = first_from(&block, column.power as u32, r) {
                let (ordinal, value) = block.pair(column, values, inner)?;
                let id = u32::from(b) << 16 | u32::from(place);
                return Ok(Some(Candidate { id, ordinal, value }));
            }
        }
        r = 0;
    }
    Ok(None)
}

/// The first place from `r` on that steps 5 and 6 do not call absent, and its inner place.
fn first_from(block: &Block, power: u32, r: u16) -> Option<(u16, usize)> {
    match Kind::of(block.count) {
        // For each place up to this entry, the scan stops here.
        Kind::Sparse => (block.data.chunks_exact(2).map(short))
            .enumerate()
            .find(|&(_, entry)| entry >= r)
            .map(|(index, entry)| (entry, index)),
        Kind::Dense => {
            let place = first_set(&block.data[rank_bytes(power)..], r)?;
            let (inner, _) = dense_place(block.data, power, place);
            inner.map(|inner| (place, inner))
        }
        Kind::All => Some((r, usize::from(r))),
    }
}

/// The first place from `r` on whose bit is set.
fn first_set(bitmap: &[u8], r: u16) -> Option<u16> {
    let own = usize::from(r / 64);
    let mut word = word_at(bitmap, own) & (u64::MAX << (r % 64));
    for i in own.. {
        if word != 0 {
            return Some((64 * i) as u16 + word.trailing_zeros() as u16);
        }
        if 8 * (i + 1) == bitmap.len() {
            break;
        }
        word = word_at(bitmap, i + 1);
    }
    None
}
