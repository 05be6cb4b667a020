//! Some pairs of a column, printed as they are met: in little memory, whatever the column holds.

use std::io;

use signalfern::{Layer, LayeredRefusal, MAX_ID};

use crate::forms::Layout;
use crate::layers::Layers;
use crate::printing::Printer;
use crate::scan::{Scan, Stop};

/// Which pairs are wanted.
#[derive(Clone, Copy, Debug, PartialEq, Eq)]
pub struct Wanted {
    pub from: u32,
    pub to: u32,
    pub limit: u64,
}

impl Wanted {
    pub const ALL: Self = Self {
        from: 0,
        to: MAX_ID,
        limit: u64::MAX,
    };
}

/// Prints the wanted pairs. The outer result is that of the output, the inner that of the reading.
pub fn print(scan: &Scan, wanted: Wanted, printer: &mut Printer) -> io::Result<Result<(), Stop>> {
    let limit = usize::try_from(wanted.limit).unwrap_or(usize::MAX);
    for pair in scan.pairs_from(wanted.from).take(limit) {
        match pair {
            Err(stop) => return Ok(Err(stop)),
            Ok((id, _)) if id > wanted.to => break,
            Ok((id, value)) => printer.pair(id, value)?,
        }
    }
    Ok(Ok(()))
}

/// The same of a column with a correction on top.
pub fn print_layers(
    layers: &Layers,
    wanted: Wanted,
    layout: &Layout,
    printer: &mut Printer,
) -> io::Result<Result<(), LayeredRefusal>> {
    let after = LAYERS.map(|layer| layout.around(layer)[2].clone());
    let limit = usize::try_from(wanted.limit).unwrap_or(usize::MAX);
    for pair in layers.pairs_from(wanted.from).take(limit) {
        match pair {
            Err(refused) => return Ok(Err(refused)),
            Ok((id, ..)) if id > wanted.to => break,
            Ok((id, value, layer)) => {
                printer.pair_with(id, value, &after[usize::from(layer.number())])?;
            }
        }
    }
    Ok(Ok(()))
}

/// The two columns by their numbers.
const LAYERS: [Layer; 2] = [Layer::Machine, Layer::Correction];
