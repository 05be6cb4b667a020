//! "The stenographer's correction lies on top" (document 02, [10]).

use crate::{look_up, look_up_in, open, Answer, Column, Refusal};

/// One of the two columns.
#[derive(Clone, Copy, Debug, PartialEq, Eq)]
pub enum Layer {
    /// The machine column.
    Machine,
    /// The correction that lies on top of it.
    Correction,
}

/// What a look-up in two columns answers. The words are each column's own, and 0 for one that was
/// not looked in.
#[derive(Clone, Copy, Debug, PartialEq, Eq)]
pub enum LayeredAnswer {
    /// The id is listed.
    Found {
        /// The column that holds it.
        layer: Layer,
        /// How many ids of that column lie below it.
        ordinal: u64,
        /// Its value there.
        value: i64,
        /// Bitmap words counted in the machine column.
        machine_words: u64,
        /// Bitmap words counted in the correction.
        correction_words: u64,
    },
    /// Neither column lists the id.
    Absent {
        /// Bitmap words counted in the machine column.
        machine_words: u64,
        /// Bitmap words counted in the correction.
        correction_words: u64,
    },
}

/// An answer, or the column that refused and its refusal.
pub type LayeredLook = Result<LayeredAnswer, (Layer, Refusal)>;

/// Looks one id up in a machine column with a correction on top.
pub fn look_up_layered(machine: &[u8], correction: &[u8], id: u32) -> LayeredLook {
    on_top(look_up(correction, id), || look_up(machine, id))
}

/// The same in two columns opened before; any numbers may stand in them.
pub fn look_up_layered_in(
    (machine_column, machine): (&Column, &[u8]),
    (correction_column, correction): (&Column, &[u8]),
    id: u32,
) -> LayeredLook {
    on_top(look_up_in(correction_column, correction, id), || {
        look_up_in(machine_column, machine, id)
    })
}

/// Any refusal by the correction refuses the call, before the machine column is opened; an id that is
/// absent there goes on to the machine column, whose answer or refusal is the call's.
fn on_top(
    correction: Result<Answer, Refusal>,
    machine: impl FnOnce() -> Result<Answer, Refusal>,
) -> LayeredLook {
    let correction_words = match correction.map_err(|it| (Layer::Correction, it))? {
        Answer::Absent { words, .. } => words,
        Answer::Found {
            ordinal,
            value,
            words,
            ..
        } => {
            return Ok(LayeredAnswer::Found {
                layer: Layer::Correction,
                ordinal,
                value,
                machine_words: 0,
                correction_words: words,
            })
        }
    };
    Ok(match machine().map_err(|it| (Layer::Machine, it))? {
        Answer::Absent { words, .. } => LayeredAnswer::Absent {
            machine_words: words,
            correction_words,
        },
        Answer::Found {
            ordinal,
            value,
            words,
            ..
        } => LayeredAnswer::Found {
            layer: Layer::Machine,
            ordinal,
            value,
            machine_words: words,
            correction_words,
        },
    })
}

/// The value section of whichever column holds the id, the correction's if both do; absent or
/// refused, an empty part of the machine column.
pub fn layered_values<'a>(machine: &'a [u8], correction: &'a [u8], id: u32) -> &'a [u8] {
    let bytes = match look_up_layered(machine, correction, id) {
        Ok(LayeredAnswer::Found { layer, .. }) => match layer {
            Layer::Machine => machine,
            Layer::Correction => correction,
        },
        _ => return &machine[..0],
    };
    open(bytes).map_or(&machine[..0], |column| column.sections(bytes).1)
}
