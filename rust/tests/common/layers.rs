//! The calls on a machine column with a correction on top, beside the reference.

use signalfern::{Column, Layered, Refusal};
use signalfern_reference::{self as reference, Layer, LayeredAnswer};

/// An answer, or the column that refused and why.
pub type Look = Result<LayeredAnswer, (Layer, Refusal)>;

fn layer(layer: signalfern::Layer) -> Layer {
    match layer {
        signalfern::Layer::Machine => Layer::Machine,
        signalfern::Layer::Correction => Layer::Correction,
    }
}

/// The library's answer in the reference's type: only the library can make its own.
#[track_caller]
fn told(look: Result<signalfern::LayeredAnswer, signalfern::LayeredRefusal>) -> Look {
    let answer = look.map_err(|refused| (layer(refused.layer), refused.refusal))?;
    let machine_words = answer.words(signalfern::Layer::Machine);
    let correction_words = answer.words(signalfern::Layer::Correction);
    Ok(match answer {
        signalfern::LayeredAnswer::Found {
            layer: by,
            ordinal,
            value,
            ..
        } => {
            assert_eq!(answer.layer(), Some(by));
            assert_eq!(
                (answer.ordinal(), answer.value()),
                (Some(ordinal), Some(value))
            );
            LayeredAnswer::Found {
                layer: layer(by),
                ordinal,
                value,
                machine_words,
                correction_words,
            }
        }
        signalfern::LayeredAnswer::Absent { .. } => {
            assert_eq!(
                (answer.layer(), answer.ordinal(), answer.value()),
                (None, None, None)
            );
            LayeredAnswer::Absent {
                machine_words,
                correction_words,
            }
        }
    })
}

/// Looks up by the bytes and, where both open, by the opened columns; and asks for the part that
/// holds the value.
#[track_caller]
pub fn look_up(machine: &[u8], correction: &[u8], id: u32) -> Look {
    let result = told(signalfern::look_up_layered(machine, correction, id));
    let expected = reference::look_up_layered(machine, correction, id);
    let expected = expected.map_err(|(layer, it)| {
        let refusal = Refusal::from_number(it.number, it.with);
        (layer, refusal.unwrap())
    });
    assert_eq!(result, expected, "id {id}");
    let part = signalfern::layered_values(machine, correction, id);
    let expected = reference::layered_values(machine, correction, id);
    assert!(std::ptr::eq(part, expected), "id {id}");
    if let (Ok(below), Ok(above)) = (Column::open(machine), Column::open(correction)) {
        let layers = Layered::new(below, above);
        assert_eq!(told(layers.look_up(id)), result, "id {id}");
        assert!(std::ptr::eq(layers.values_of(id), part), "id {id}");
        for by in [signalfern::Layer::Machine, signalfern::Layer::Correction] {
            let lent = [machine, correction][by as usize];
            assert!(std::ptr::eq(layers.column(by).bytes(), lent));
        }
    }
    result
}
