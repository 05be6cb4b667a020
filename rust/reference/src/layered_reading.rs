//! Pairs of a machine column with a correction on top, from an id on, in the order of ids. One step is the
//! sooner of the two columns' next candidates, the correction's where both have the id.

use crate::layered_page::number;
use crate::{next, next_in, Candidate, Column, Layer, Next, Readout, Refusal, MAX_ID};

/// A candidate and its column, none, or the column that refused and its refusal.
type Step = Result<Option<(Layer, Candidate)>, (Layer, Refusal)>;

/// Places the pairs of both columns at or above `id` into the first places of the three lists, as many as all
/// have. Refused only where the very first step is, and then nothing is written.
pub fn read_layered_from(
    machine: &[u8],
    correction: &[u8],
    id: u32,
    ids: &mut [u32],
    values: &mut [i64],
    columns: &mut [u8],
) -> Result<Readout, (Layer, Refusal)> {
    one_by_one(id, ids, values, columns, |id| {
        sooner(next(&mut 0, correction, id), || next(&mut 0, machine, id))
    })
}

/// The same in two columns opened before; any numbers may stand in them.
pub fn read_layered_from_in(
    (machine_column, machine): (&Column, &[u8]),
    (correction_column, correction): (&Column, &[u8]),
    id: u32,
    ids: &mut [u32],
    values: &mut [i64],
    columns: &mut [u8],
) -> Result<Readout, (Layer, Refusal)> {
    one_by_one(id, ids, values, columns, |id| {
        sooner(next_in(correction_column, &mut 0, correction, id), || {
            next_in(machine_column, &mut 0, machine, id)
        })
    })
}

/// The correction is asked first, and its refusal refuses the step; then the machine column's does, even where
/// the correction's candidate is nearer.
fn sooner(above: Next, below: impl FnOnce() -> Next) -> Step {
    let above = above.map_err(|it| (Layer::Correction, it))?;
    let below = below().map_err(|it| (Layer::Machine, it))?;
    Ok(match (above, below) {
        (Some(above), Some(below)) if below.id < above.id => Some((Layer::Machine, below)),
        (Some(above), _) => Some((Layer::Correction, above)),
        (None, below) => below.map(|below| (Layer::Machine, below)),
    })
}

fn one_by_one(
    id: u32,
    ids: &mut [u32],
    values: &mut [i64],
    columns: &mut [u8],
    step: impl Fn(u32) -> Step,
) -> Result<Readout, (Layer, Refusal)> {
    let room = ids.len().min(values.len()).min(columns.len());
    let mut coming = step(id)?;
    for count in 0..room {
        let Some((layer, pair)) = coming else {
            return Ok(Readout { count, ended: true });
        };
        (ids[count], values[count], columns[count]) = (pair.id, pair.value, number(layer));
        // Above the greatest id there is none.
        coming = match pair.id {
            MAX_ID => None,
            id => match step(id + 1) {
                Ok(coming) => coming,
                Err(_) => {
                    return Ok(Readout {
                        count: count + 1,
                        ended: false,
                    })
                }
            },
        };
    }
    Ok(Readout {
        count: room,
        ended: coming.is_none(),
    })
}
