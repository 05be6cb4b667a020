//! Jump entries as witnesses: they tell every block's number and count a second time.

use crate::blocks::{data_bytes, long, rank_bytes, Block, Kind, Section, HEAD};

/// What the entries say of a block.
pub enum Told {
    /// As its head says.
    Same,
    /// Another number or count, on which more than one entry or number agrees.
    Number(u64),
    Count(u64),
    /// They do not fit this block, and no single change of its head would make them fit.
    Nothing,
}

pub fn ask(section: &Section, block: &Block) -> Told {
    let here = Some((block.before, block.at));
    let next = Some((block.before + block.count, block.end(section.power)));
    if section.jump(block.number) == here && section.jump(block.number + 1) == next {
        return Told::Same;
    }
    let entries = section.jumps.len() as u64 / 8;
    // The last entry that leads here is that of the block itself.
    let own = (0..entries)
        .rev()
        .find(|&index| section.jump(index) == here);
    if let Some(number) = own.filter(|own| section.jump(own + 1) == next) {
        return Told::Number(number);
    }
    count_of(section, block).map_or(Told::Nothing, Told::Count)
}

/// The count on which both numbers of the next block's entry agree, if it is another.
fn count_of(section: &Section, block: &Block) -> Option<u64> {
    let (ids, start) = section.jump(block.number + 1)?;
    let count = ids.checked_sub(block.before)?;
    let end = block.at + HEAD + data_bytes(count, section.power);
    let fits = (1..=65_536).contains(&count) && start == end && count != block.count;
    // All dense blocks have one length: there the bitmap is the second witness.
    let dense = block.kind == Kind::Dense && Kind::of(count) == Kind::Dense;
    (fits && !(dense && ones(section, block) == block.count)).then_some(count)
}

fn ones(section: &Section, block: &Block) -> u64 {
    let data = section.data(block).unwrap_or_default();
    let bitmap = data.get(rank_bytes(section.power) as usize..);
    let words = bitmap.unwrap_or_default().chunks_exact(8);
    words.map(|word| u64::from(long(word).count_ones())).sum()
}
