//! "A page of candidates in one call" (document 02, [3]).

use crate::look_up::steps;
use crate::sparse::halve;
use crate::{open, Answer, Refusal, MAX_ID};

/// Looks a page of ids up into the first places of the three lists, and gives the sum of the words,
/// modulo 2^64. The header is opened once for all of them.
#[inline]
pub fn look_up_page(
    bytes: &[u8],
    ids: &[u32],
    ordinals: &mut [u64],
    values: &mut [i64],
    kinds: &mut [u8],
) -> Result<u64, Refusal> {
    let shortest = ordinals.len().min(values.len()).min(kinds.len());
    if shortest < ids.len() {
        return Err(Refusal::buffer(ids.len() as u64));
    }
    let opened = open(bytes);
    let look_up = |id: u32| match &opened {
        _ if id > MAX_ID => Err(Refusal::ID),
        Ok(column) => steps(column, bytes, id, halve),
        Err(refusal) => Err(*refusal),
    };
    let mut sum: u64 = 0;
    let lists = ordinals.iter_mut().zip(values).zip(kinds);
    for (&id, ((ordinal, value), kind)) in ids.iter().zip(lists) {
        let words;
        (*kind, *ordinal, *value, words) = place(look_up(id));
        sum = sum.wrapping_add(words);
    }
    Ok(sum)
}

/// What one place holds, 0 found, 1 absent, else the refusal number, and the words that it counts.
#[inline]
fn place(answer: Result<Answer, Refusal>) -> (u8, u64, i64, u64) {
    match answer {
        Ok(Answer::Found {
            ordinal,
            value,
            words,
            ..
        }) => (0, ordinal, value, words),
        Ok(Answer::Absent { words, .. }) => (1, 0, 0, words),
        Err(refusal) => (refusal.number as u8, 0, 0, 0),
    }
}
