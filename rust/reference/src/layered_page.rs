//! A page of ids in a machine column with a correction on top: each place is what the look-up of its id in
//! both columns answers.

use crate::{
    look_up_layered, look_up_layered_in, Column, Layer, LayeredAnswer, LayeredLook, Refusal,
};

/// Looks a page of ids up into the first places of the four lists, and gives the sums of the words, the
/// machine column's first, each modulo 2^64.
pub fn look_up_layered_page(
    machine: &[u8],
    correction: &[u8],
    ids: &[u32],
    ordinals: &mut [u64],
    values: &mut [i64],
    kinds: &mut [u8],
    columns: &mut [u8],
) -> Result<(u64, u64), Refusal> {
    each(ids, ordinals, values, kinds, columns, |id| {
        look_up_layered(machine, correction, id)
    })
}

/// The same in two columns opened before; any numbers may stand in them.
pub fn look_up_layered_page_in(
    machine: (&Column, &[u8]),
    correction: (&Column, &[u8]),
    ids: &[u32],
    ordinals: &mut [u64],
    values: &mut [i64],
    kinds: &mut [u8],
    columns: &mut [u8],
) -> Result<(u64, u64), Refusal> {
    each(ids, ordinals, values, kinds, columns, |id| {
        look_up_layered_in(machine, correction, id)
    })
}

/// 12 with the count of ids where a list is shorter, before anything is asked.
fn each(
    ids: &[u32],
    ordinals: &mut [u64],
    values: &mut [i64],
    kinds: &mut [u8],
    columns: &mut [u8],
    look_up: impl Fn(u32) -> LayeredLook,
) -> Result<(u64, u64), Refusal> {
    let rooms = [ordinals.len(), values.len(), kinds.len(), columns.len()];
    if rooms.iter().any(|&room| room < ids.len()) {
        return Err(Refusal::buffer(ids.len() as u64));
    }
    let mut sums = (0_u64, 0_u64);
    for (i, &id) in ids.iter().enumerate() {
        let looked = look_up(id);
        (kinds[i], ordinals[i], values[i], columns[i]) = place(looked);
        let (machine, correction) = words(looked);
        sums = (
            sums.0.wrapping_add(machine),
            sums.1.wrapping_add(correction),
        );
    }
    Ok(sums)
}

/// What one place holds: 0 found, 1 absent, else the refusal number; ordinal and value, 0 where none is found;
/// and the column that holds the id or refused.
fn place(looked: LayeredLook) -> (u8, u64, i64, u8) {
    match looked {
        Ok(LayeredAnswer::Found {
            layer,
            ordinal,
            value,
            ..
        }) => (0, ordinal, value, number(layer)),
        Ok(LayeredAnswer::Absent { .. }) => (1, 0, 0, 0),
        Err((layer, refusal)) => (refusal.number as u8, 0, 0, number(layer)),
    }
}

/// The number of a column in a list of them.
pub(crate) fn number(layer: Layer) -> u8 {
    match layer {
        Layer::Machine => 0,
        Layer::Correction => 1,
    }
}

/// A refusal counts no words.
fn words(looked: LayeredLook) -> (u64, u64) {
    match looked {
        Ok(
            LayeredAnswer::Found {
                machine_words,
                correction_words,
                ..
            }
            | LayeredAnswer::Absent {
                machine_words,
                correction_words,
            },
        ) => (machine_words, correction_words),
        Err(_) => (0, 0),
    }
}
