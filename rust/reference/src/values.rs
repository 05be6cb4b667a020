//! The value section: smallest value, divisor, width, and the packed numbers. That of edition 3 stands in
//! `runs`, that of edition 4 in `table`.

use crate::{lucene, runs, table, Column, MAX_WIDTH};

/// The editions: they differ in the value section, and in what the header says of it.
#[derive(Clone, Copy, PartialEq, Eq)]
pub(crate) enum Edition {
    /// Document 01's.
    Plain,
    /// Document 02's, [6].
    Lucene,
    /// Document 02's, [11].
    Runs,
    /// Document 02's, [12].
    Table,
}

impl Edition {
    pub fn numbered(number: u64) -> Option<Self> {
        match number {
            1 => Some(Self::Plain),
            2 => Some(Self::Lucene),
            3 => Some(Self::Runs),
            4 => Some(Self::Table),
            _ => None,
        }
    }

    pub fn number(self) -> u64 {
        match self {
            Self::Plain => 1,
            Self::Lucene => 2,
            Self::Runs => 3,
            Self::Table => 4,
        }
    }

    /// The header rules on w, on the smallest value, on g and on V; n is within its limit.
    pub fn keeps_the_rules(self, column: &Column) -> bool {
        let (count, width) = (column.count, column.width);
        match self {
            Self::Plain if width > MAX_WIDTH => false,
            Self::Lucene if !lucene::allows(width) => false,
            Self::Plain | Self::Lucene => column.value_bytes == section_bytes(count, width),
            Self::Runs => {
                let no_numbers = column.smallest_number == 0 && width == 0;
                no_numbers && column.value_bytes >= runs::directory_bytes(count)
            }
            Self::Table => table::keeps_the_rules(column),
        }
    }

    /// The least width whose numbers go up to this one.
    pub fn width_for(self, most: u64) -> u32 {
        match self {
            Self::Lucene => lucene::width_for(most),
            Self::Plain | Self::Runs | Self::Table => least_width(most),
        }
    }
}

/// The least width from 0 to 64 whose numbers go up to this one.
pub(crate) fn least_width(most: u64) -> u32 {
    64 - most.leading_zeros()
}

/// n times w over 8, rounded up.
pub(crate) fn section_bytes(count: u64, width: u64) -> u64 {
    (count * width).div_ceil(8)
}

/// g: the greatest common divisor of each value's difference to the first value (document 02, [2]); 1
/// if all are equal. A difference without its sign is below 2^64, so none is too great.
pub(crate) fn divisor_of(mut values: impl Iterator<Item = i64>) -> u64 {
    let Some(first) = values.next() else {
        return 1;
    };
    let mut divisor = 0;
    for value in values {
        divisor = gcd(divisor, value.abs_diff(first));
        if divisor == 1 {
            break;
        }
    }
    divisor.max(1)
}

fn gcd(mut a: u64, mut b: u64) -> u64 {
    while a != 0 {
        (a, b) = (b % a, a);
    }
    b
}

/// Stored numbers one after the other, high bit first; the spare bits of the last byte are 0.
pub(crate) fn pack(out: &mut [u8], width: u32, values: &[i64], stored: impl Fn(i64) -> u64) {
    let mut words = out.chunks_mut(8);
    // The low `waiting` bits are not written yet: fewer than 64 before each value.
    let mut bits: u128 = 0;
    let mut waiting = 0;
    for &value in values {
        bits = (bits << width) | u128::from(stored(value));
        waiting += width;
        if waiting >= 64 {
            waiting -= 64;
            if let Some(word) = words.next() {
                word.copy_from_slice(&((bits >> waiting) as u64).to_be_bytes());
            }
        }
    }
    if let Some(tail) = words.next() {
        let last = ((bits << (64 - waiting)) as u64).to_be_bytes();
        tail.copy_from_slice(&last[..tail.len()]);
    }
}

/// The value of an ordinal below n, which step 7 takes. None is BROKEN.
#[inline]
pub(crate) fn value_at(column: &Column, section: &[u8], ordinal: usize) -> Option<i64> {
    match column.edition {
        3 => runs::value_at(column, section, ordinal),
        4 => table::value_at(column, section, ordinal),
        _ => value_of(column, stored(column, section, ordinal)),
    }
}

/// Stored number `i` of a column of edition 1 or 2.
#[inline]
fn stored(column: &Column, section: &[u8], i: usize) -> u64 {
    let width = column.width as u32;
    match column.edition {
        2 => lucene::fetch(section, width, i),
        _ => fetch(section, width, i),
    }
}

/// Stored number `i`, high bit first.
#[inline]
pub(crate) fn fetch(section: &[u8], width: u32, i: usize) -> u64 {
    if width == 0 {
        return 0;
    }
    let bit = i * width as usize;
    let (byte, skip) = (bit / 8, bit % 8);
    // 64 bits from an unaligned place touch up to nine bytes.
    let [eight @ .., next] = match section[byte..].first_chunk::<9>() {
        Some(&nine) => nine,
        None => {
            let mut nine = [0; 9];
            nine[..section.len() - byte].copy_from_slice(&section[byte..]);
            nine
        }
    };
    let bits = (u64::from_be_bytes(eight) << skip) | (u64::from(next) >> (8 - skip));
    bits >> (64 - width)
}

fn value_of(column: &Column, stored: u64) -> Option<i64> {
    sum(column.smallest(), column.divisor, stored)
}

/// smallest + g times the stored number, if it fits in a signed 64-bit number.
#[inline]
pub(crate) fn sum(smallest: i64, divisor: u64, stored: u64) -> Option<i64> {
    smallest.checked_add_unsigned(divisor.checked_mul(stored)?)
}

/// All values, of a section known to be sound.
pub(crate) fn read(column: &Column, section: &[u8], values: &mut [i64]) {
    match column.edition {
        3 => return runs::read(column, section, values),
        4 => return table::read(column, section, values),
        _ => {}
    }
    let smallest = column.smallest();
    if column.width == 0 {
        values.fill(smallest);
        return;
    }
    for (i, value) in values.iter_mut().enumerate() {
        let offset = column.divisor.wrapping_mul(stored(column, section, i));
        *value = smallest.wrapping_add_unsigned(offset);
    }
}

/// Whether the bits after so many numbers are 0, up to the end of the last byte.
pub(crate) fn spare_clear(packed: &[u8], count: usize, width: u32) -> bool {
    let spare = packed.len() * 8 - count * width as usize;
    packed
        .last()
        .is_none_or(|last| last & ((1 << spare) - 1) == 0)
}

/// Whether the section, with the header's smallest value, divisor and width, is what the writer
/// makes of the values that it stands for.
pub(crate) fn sound(column: &Column, section: &[u8]) -> bool {
    let (count, width) = (column.count as usize, column.width as u32);
    let Some(edition) = Edition::numbered(column.edition) else {
        return false;
    };
    match edition {
        Edition::Runs => return runs::sound(column, section),
        Edition::Table => return table::sound(column, section),
        Edition::Plain | Edition::Lucene => {}
    }
    if width == 0 {
        // All values are equal, or there are none.
        return column.divisor == 1 && (count > 0 || column.smallest_number == 0);
    }
    if count == 0 {
        return false;
    }
    let spare_clear = match edition {
        Edition::Lucene => lucene::spare_clear(section, count, width),
        _ => spare_clear(section, count, width),
    };
    // A value that wraps is above the greatest one that fits: `value_of` tells below.
    let smallest = column.smallest();
    let value = |stored| smallest.wrapping_add_unsigned(column.divisor.wrapping_mul(stored));
    let first = value(stored(column, section, 0));
    let (mut low, mut high) = (u64::MAX, 0);
    let mut divisor = 0;
    for i in 0..count {
        let stored = stored(column, section, i);
        low = low.min(stored);
        high = high.max(stored);
        if divisor != 1 {
            divisor = gcd(divisor, value(stored).abs_diff(first));
        }
    }
    spare_clear
        && low == 0
        && edition.width_for(high) == width
        && value_of(column, high).is_some()
        && divisor == column.divisor
}
