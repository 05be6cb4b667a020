//! set read: the ids of a set as lines.

use std::io;

use super::sound;
use crate::arguments::Arguments;
use crate::failure::Failure;
use crate::json::Object;
use crate::load::Loaded;
use crate::output::Output;
use crate::printing::Printer;
use crate::progress::{Progress, Unit};
use crate::replaced::Replaces;
use crate::set_blocks::{Block, Blocks};

pub fn run(mut arguments: Arguments) -> Result<(), Failure> {
    let given = arguments.digest("digest")?;
    let output = arguments.path("output").unwrap_or_else(|| "-".into());
    let path = arguments.file("set")?;
    arguments.finish()?;
    let loaded = Loaded::start(&path)?;
    let force = arguments.has("force");
    let output = Output::open(&output, force, Replaces::Nothing, &[loaded.input()])?;
    drop(loaded);
    let (loaded, count) = sound(&path, given)?;
    let progress = Progress::new("printing".to_string(), Unit::Ids, Some(count));
    let progress = progress.beside(output.is_standard());
    output.fill(|out| {
        let mut printer = Printer::new(out, progress);
        for block in blocks(&loaded)? {
            for id in confirmed_ids(&block?)? {
                match arguments.has("json") {
                    true => printer.text(&Object::new().number("id", id).line())?,
                    false => printer.id(id)?,
                }
            }
        }
        printer.finish()
    })
}

/// The blocks of a set that was checked.
pub fn blocks(loaded: &Loaded) -> io::Result<impl Iterator<Item = io::Result<Block<'_>>>> {
    let not_read = |_| io::Error::other("the set cannot be read again");
    let blocks = Blocks::of(&loaded.bytes).map_err(not_read)?;
    Ok(blocks.map(move |block| block.map_err(not_read)))
}

/// The ids of a block. The library has no call that lists them, but its writer gives each list its own bytes: a
/// set of these ids alone must be this block.
pub fn confirmed_ids(block: &Block) -> io::Result<Vec<u32>> {
    let ids = block.ids();
    let is_block = |set: Vec<u8>| set.split_first() == Some((&1, block.bytes));
    match signalfern::set_write_to_vec(&ids).is_ok_and(is_block) {
        true => Ok(ids),
        false => Err(io::Error::other("the ids read do not make the set again")),
    }
}
