//! Pairs from an id on: place 0 is what `next` answers for that id, place 1 what it answers for the
//! id after that one, and so on, until there is none, a list is full, or the next one would be
//! refused.

use crate::{next, next_in, Column, Next, Refusal, MAX_ID};

/// What a reading from an id on left in the lists.
#[derive(Clone, Copy, Debug, PartialEq, Eq)]
pub struct Readout {
    /// How many pairs.
    pub count: usize,
    /// Whether no listed id is left above them.
    pub ended: bool,
}

/// Places the pairs at or above `id` into the first places of both lists, as many as both have.
/// Refused only where the very first candidate is, and then nothing is written.
pub fn read_from(
    bytes: &[u8],
    id: u32,
    ids: &mut [u32],
    values: &mut [i64],
) -> Result<Readout, Refusal> {
    one_by_one(id, ids, values, |id| next(&mut 0, bytes, id))
}

/// The same in a column opened before. Any numbers may stand in the column, as in a look-up.
pub fn read_from_in(
    column: &Column,
    bytes: &[u8],
    id: u32,
    ids: &mut [u32],
    values: &mut [i64],
) -> Result<Readout, Refusal> {
    one_by_one(id, ids, values, |id| next_in(column, &mut 0, bytes, id))
}

fn one_by_one(
    id: u32,
    ids: &mut [u32],
    values: &mut [i64],
    next: impl Fn(u32) -> Next,
) -> Result<Readout, Refusal> {
    let mut candidate = next(id)?;
    let mut count = 0;
    for (id, value) in ids.iter_mut().zip(values) {
        let Some(pair) = candidate else {
            break;
        };
        (*id, *value) = (pair.id, pair.value);
        count += 1;
        // Above the greatest id there is none.
        candidate = if pair.id == MAX_ID {
            None
        } else {
            match next(pair.id + 1) {
                Ok(candidate) => candidate,
                Err(_) => {
                    return Ok(Readout {
                        count,
                        ended: false,
                    })
                }
            }
        };
    }
    Ok(Readout {
        count,
        ended: candidate.is_none(),
    })
}
