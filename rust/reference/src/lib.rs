//! Document 01, as document 02 amends it, once more in plain safe Rust.
//!
//! Written from the documents alone, so that the tests can hold the proved library against a second
//! opinion and the benchmarks have something to measure it by. Nothing here is proved, and the
//! library does not use it. Like the library it allocates nothing.
#![cfg_attr(not(test), no_std)]

mod header;
mod ids;
mod judge;
mod layered;
mod layered_page;
mod layered_reading;
mod layout;
mod look_up;
mod lucene;
mod next;
mod page;
mod pair_at;
mod read_from;
mod runs;
mod set;
mod sparse;
mod table;
mod values;

pub use header::{open, Column};
pub use judge::{judge_section, Judgement};
pub use layered::{
    layered_values, look_up_layered, look_up_layered_in, Layer, LayeredAnswer, LayeredLook,
};
pub use layered_page::{look_up_layered_page, look_up_layered_page_in};
pub use layered_reading::{read_layered_from, read_layered_from_in};
pub use look_up::{look_up, look_up_in};
pub use next::{next, next_by_each_id, next_in, next_listed, Candidate, Next};
pub use page::look_up_page;
pub use pair_at::{pair_at, pair_at_in};
pub use read_from::{read_from, read_from_in, Readout};
pub use runs::{
    first_between, first_between_from, first_between_from_in, first_between_in, Between,
};
pub use set::{set_check, set_find, set_write};
pub use sparse::{halve, scan};
pub use table::plan;

use layout::Layout;
use values::Edition;

/// The greatest id.
pub const MAX_ID: u32 = 2_147_352_575;
/// The greatest count of pairs.
pub const MAX_COUNT: u64 = 2_147_352_576;
/// The greatest count of jump entries.
pub const MAX_JUMPS: u64 = 32_767;
/// The greatest width of a stored number.
pub const MAX_WIDTH: u64 = 64;

/// A refusal: its number in document 01, and the number with it.
#[derive(Clone, Copy, Debug, PartialEq, Eq)]
pub struct Refusal {
    /// 1 to 17, without 5.
    pub number: u64,
    /// An index, a byte count, a place among the bytes, a pair count or 0.
    pub with: u64,
}

impl Refusal {
    const fn new(number: u64, with: u64) -> Self {
        Self { number, with }
    }

    const LENGTHS: Self = Self::new(1, 0);
    const POWER: Self = Self::new(2, 0);
    // 5 is not used: it was OFFSET, which cannot happen (document 02, [7])
    const EDITION: Self = Self::new(9, 0);
    const HEADER: Self = Self::new(10, 0);
    const LENGTH: Self = Self::new(11, 0);
    const DAMAGED: Self = Self::new(13, 0);
    const ID: Self = Self::new(14, 0);
    const BROKEN: Self = Self::new(15, 0);
    const BACK: Self = Self::new(16, 0);
    const PLAN: Self = Self::new(17, 0);

    const fn order(index: usize) -> Self {
        Self::new(3, index as u64)
    }

    const fn range(index: usize) -> Self {
        Self::new(4, index as u64)
    }

    const fn room(needed: u64) -> Self {
        Self::new(6, needed)
    }

    /// With the byte count (document 02, [4]).
    const fn short(bytes: usize) -> Self {
        Self::new(7, bytes as u64)
    }

    /// NUMBER, with the place of the byte that decided it, from 0 (document 02, [4]).
    const fn bad_number(place: usize) -> Self {
        Self::new(8, place as u64)
    }

    /// With the places needed.
    const fn buffer(needed: u64) -> Self {
        Self::new(12, needed)
    }
}

/// What a look-up answers.
#[derive(Clone, Copy, Debug, PartialEq, Eq)]
pub enum Answer {
    /// The id is listed.
    Found {
        /// How many listed ids lie below it.
        ordinal: u64,
        /// Its value.
        value: i64,
        /// Bitmap words counted.
        words: u64,
        /// Entries of a sparse block probed.
        probes: u64,
    },
    /// The id is not listed.
    Absent {
        /// Bitmap words counted.
        words: u64,
        /// Entries of a sparse block probed.
        probes: u64,
    },
}

fn power_allowed(power: u64) -> bool {
    power == 0 || (7..=15).contains(&power)
}

/// ORDER over the whole list, then RANGE.
fn in_order_and_range(ids: &[u32]) -> Result<(), Refusal> {
    if let Some(i) = ids.windows(2).position(|pair| pair[1] <= pair[0]) {
        return Err(Refusal::order(i + 1));
    }
    // The ids ascend, so the first above the limit can be searched for.
    let within = ids.partition_point(|&id| id <= MAX_ID);
    if within < ids.len() {
        return Err(Refusal::range(within));
    }
    Ok(())
}

/// POWER, then ORDER, then RANGE.
fn can_be_written(ids: &[u32], power: u32) -> Result<(), Refusal> {
    if !power_allowed(u64::from(power)) {
        return Err(Refusal::POWER);
    }
    in_order_and_range(ids)
}

/// Writes the column of the pairs, of the edition with this number, to the front of `out`, and gives
/// its byte count. Told edition 4, it plans for itself.
pub fn write(
    ids: &[u32],
    values: &[i64],
    edition: u32,
    power: u32,
    out: &mut [u8],
) -> Result<u64, Refusal> {
    if ids.len() != values.len() {
        return Err(Refusal::LENGTHS);
    }
    let edition = Edition::numbered(edition.into()).ok_or(Refusal::EDITION)?;
    can_be_written(ids, power)?;
    if edition != Edition::Table {
        return write_as(&Layout::of(values, edition), ids, values, power, out);
    }
    let mut table = [0; table::MOST];
    let entries = table::propose(values, &mut table);
    let layout = Layout::planned(values, &table[..entries]);
    write_as(&layout, ids, values, power, out)
}

/// Writes the column of the pairs by a plan (document 02, [12]): a table gives edition 4, and none at all,
/// which is plain, edition 1.
pub fn write_planned(
    ids: &[u32],
    values: &[i64],
    plan: &[i64],
    power: u32,
    out: &mut [u8],
) -> Result<u64, Refusal> {
    if ids.len() != values.len() {
        return Err(Refusal::LENGTHS);
    }
    can_be_written(ids, power)?;
    if !table::accepts(plan, values) {
        return Err(Refusal::PLAN);
    }
    write_as(&Layout::planned(values, plan), ids, values, power, out)
}

/// ROOM is all that is left to be refused.
fn write_as(
    stored: &Layout,
    ids: &[u32],
    values: &[i64],
    power: u32,
    out: &mut [u8],
) -> Result<u64, Refusal> {
    let layout = ids::Layout::of(ids, power);
    let column = Column {
        edition: stored.edition.number(),
        count: ids.len() as u64,
        power: u64::from(power),
        id_bytes: layout.bytes(),
        jump_count: layout.jump_count(),
        width: u64::from(stored.width),
        smallest_number: header::zigzag(stored.smallest),
        divisor: stored.divisor,
        value_bytes: stored.value_bytes,
        start: 0,
    };
    let (head, head_len) = column.encode();
    let needed = head_len as u64 + column.id_bytes + column.value_bytes;
    if (out.len() as u64) < needed {
        return Err(Refusal::room(needed));
    }
    let (head_out, rest) = out[..needed as usize].split_at_mut(head_len);
    let (id_out, value_out) = rest.split_at_mut(column.id_bytes as usize);
    head_out.copy_from_slice(&head[..head_len]);
    layout.write(ids, id_out);
    stored.write(values, value_out);
    Ok(needed)
}

/// Whether the bytes are the column of some pair list; gives its count of pairs.
pub fn check(bytes: &[u8]) -> Result<u64, Refusal> {
    let column = open(bytes)?;
    verify(&column, bytes)?;
    Ok(column.count)
}

/// Reads all pairs into the first places of the two buffers, and gives their count.
pub fn read(bytes: &[u8], ids: &mut [u32], values: &mut [i64]) -> Result<u64, Refusal> {
    let column = open(bytes)?;
    let shorter = ids.len().min(values.len()) as u64;
    if shorter < column.count {
        return Err(Refusal::buffer(column.count));
    }
    verify(&column, bytes)?;
    let count = column.count as usize;
    let (id_section, value_section) = column.sections(bytes);
    ids::read(&column, id_section, &mut ids[..count]);
    values::read(&column, value_section, &mut values[..count]);
    Ok(column.count)
}

/// DAMAGED unless the two sections of an opened column are those of a pair list.
fn verify(column: &Column, bytes: &[u8]) -> Result<(), Refusal> {
    let (id_section, value_section) = column.sections(bytes);
    let sound = ids::sound(column, id_section) && values::sound(column, value_section);
    sound.then_some(()).ok_or(Refusal::DAMAGED)
}

#[cfg(test)]
mod tests;
