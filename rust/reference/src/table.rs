//! "A planner for few distinct scores" (document 02, [12]): the value section of edition 4, the small check of
//! a plan, and the planner.

use crate::header::zigzag;
use crate::layout::Layout;
use crate::values::{fetch, least_width, pack, section_bytes, spare_clear};
use crate::{Column, Refusal, MAX_COUNT};

/// The entries of a table are so many at least, and at most.
const LEAST: usize = 2;
pub(crate) const MOST: usize = 256;
/// Bytes of an entry.
const ENTRY: u64 = 8;

/// The least width for the last code of so many entries.
pub(crate) fn width_for(entries: u64) -> u32 {
    least_width(entries - 1)
}

/// V: 8T and the code bytes.
pub(crate) fn value_bytes(entries: u64, count: u64) -> u64 {
    ENTRY * entries + section_bytes(count, width_for(entries).into())
}

/// The header rules of edition 4: "another T, w or smallest is HEADER".
pub(crate) fn keeps_the_rules(column: &Column) -> bool {
    (LEAST as u64..=MOST as u64).contains(&column.divisor)
        && column.width == width_for(column.divisor).into()
        && column.smallest_number == 0
        && column.value_bytes == value_bytes(column.divisor, column.count)
}

/// Writes the section of values that the table holds; `out` has exactly its bytes.
pub(crate) fn write(values: &[i64], table: &[i64], out: &mut [u8]) {
    let (entries, codes) = out.split_at_mut(ENTRY as usize * table.len());
    for (entry, value) in entries.chunks_exact_mut(ENTRY as usize).zip(table) {
        entry.copy_from_slice(&value.to_le_bytes());
    }
    let code = |value: i64| table.partition_point(|&entry| entry < value) as u64;
    pack(codes, width_for(table.len() as u64), values, code);
}

/// The table of a section, and its codes.
#[inline]
fn parts<'a>(column: &Column, section: &'a [u8]) -> (&'a [u8], &'a [u8]) {
    section.split_at((ENTRY * column.divisor) as usize)
}

/// Step 7: the table's entry at the code. None, for a code of T or more, is BROKEN.
#[inline]
pub(crate) fn value_at(column: &Column, section: &[u8], ordinal: usize) -> Option<i64> {
    let (entries, codes) = parts(column, section);
    let code = fetch(codes, column.width as u32, ordinal);
    let entry = entries.chunks_exact(ENTRY as usize).nth(code as usize)?;
    entry.first_chunk().map(|&eight| i64::from_le_bytes(eight))
}

/// All values, of a section known to be sound.
pub(crate) fn read(column: &Column, section: &[u8], values: &mut [i64]) {
    for (ordinal, value) in values.iter_mut().enumerate() {
        *value = value_at(column, section, ordinal).expect("a sound section");
    }
}

/// Which entries of a table are used.
struct Used([bool; MOST]);

impl Used {
    /// By codes; none where one is not below `entries`.
    fn by(codes: impl Iterator<Item = usize>, entries: usize) -> Option<Self> {
        let mut used = Self([false; MOST]);
        for code in codes {
            *used.0[..entries].get_mut(code)? = true;
        }
        Some(used)
    }

    fn all(&self, entries: usize) -> bool {
        self.0[..entries].iter().all(|&used| used)
    }
}

/// Whether the section is what the writer makes of the values that it stands for, and the small check takes
/// its table for them.
pub(crate) fn sound(column: &Column, section: &[u8]) -> bool {
    let (entries, codes) = parts(column, section);
    let (count, width) = (column.count as usize, column.width as u32);
    let mut table = [0; MOST];
    for (value, entry) in table.iter_mut().zip(entries.chunks_exact(ENTRY as usize)) {
        *value = i64::from_le_bytes(*entry.first_chunk().expect("eight bytes"));
    }
    let table = &table[..column.divisor as usize];
    let stored = (0..count).map(|i| fetch(codes, width, i) as usize);
    spare_clear(codes, count, width)
        && ascends(table)
        && Used::by(stored, table.len()).is_some_and(|used| used.all(table.len()))
        && shorter(table, column.count)
}

fn ascends(table: &[i64]) -> bool {
    table.windows(2).all(|pair| pair[0] < pair[1])
}

/// Whether the column with this table is shorter than edition 1's, for so many values of which each is an
/// entry and each entry is one. What the header says of the pairs' ids is the same in both, and so is their
/// section.
fn shorter(table: &[i64], count: u64) -> bool {
    let bytes = |layout: Layout| {
        let header = Column {
            count,
            width: layout.width.into(),
            smallest_number: zigzag(layout.smallest),
            divisor: layout.divisor,
            value_bytes: layout.value_bytes,
            ..Column::default()
        };
        header.encode().1 as u64 + layout.value_bytes
    };
    bytes(Layout::tabled(count, table)) < bytes(Layout::plain(count, table.iter().copied()))
}

/// The small check of a plan: plain, which is no table, always; a table "exactly if it has 2 to 256 entries, is
/// strictly ascending, holds every value, has no unused entry, and the column is shorter than edition 1's".
pub(crate) fn accepts(plan: &[i64], values: &[i64]) -> bool {
    if plan.is_empty() {
        return true;
    }
    if !(LEAST..=MOST).contains(&plan.len()) || !ascends(plan) {
        return false;
    }
    // No entry is found for a value that the table does not hold.
    let codes = values
        .iter()
        .map(|value| plan.binary_search(value).unwrap_or(MOST));
    Used::by(codes, plan.len()).is_some_and(|used| used.all(plan.len()))
        && shorter(plan, values.len() as u64)
}

/// The planner: the distinct values, where the small check takes them, and else none, which is plain. Gives
/// how many entries they are. More values than a column can hold have no column.
pub(crate) fn propose(values: &[i64], table: &mut [i64; MOST]) -> usize {
    let mut count = 0;
    for &value in values {
        if let Err(place) = table[..count].binary_search(&value) {
            if count == MOST {
                return 0;
            }
            table.copy_within(place..count, place + 1);
            table[place] = value;
            count += 1;
        }
    }
    let fits = values.len() as u64 <= MAX_COUNT && accepts(&table[..count], values);
    if fits {
        count
    } else {
        0
    }
}

/// Proposes a table for the values, in the first places of `table`, and gives how many entries it has; 0 is
/// plain. A lent table must have room for any.
pub fn plan(values: &[i64], table: &mut [i64]) -> Result<u64, Refusal> {
    if table.len() < MOST {
        return Err(Refusal::buffer(MOST as u64));
    }
    let mut entries = [0; MOST];
    let count = propose(values, &mut entries);
    table[..count].copy_from_slice(&entries[..count]);
    Ok(count as u64)
}
