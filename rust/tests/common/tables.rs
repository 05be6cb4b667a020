//! Columns of edition 4 (document 02, [12]), their tables and their codes.

use std::collections::BTreeSet;

use signalfern::{Edition, Refusal};
use signalfern_reference::Answer;

use super::parts::{self, Parts};
use super::{same, Random};

/// Bytes of an entry.
pub const ENTRY: usize = 8;

/// The ids 0, 3, 6, and so on, as many as there are values.
pub fn ids(count: usize) -> Vec<u32> {
    (0..count as u32).map(|i| 3 * i).collect()
}

/// The distinct values, ascending.
pub fn distinct(values: &[i64]) -> Vec<i64> {
    let values: BTreeSet<i64> = values.iter().copied().collect();
    values.into_iter().collect()
}

/// As many values, of which so many are distinct. In edition 1 each takes 64 bits, if they are three or more.
pub fn far_apart(distinct: usize, count: usize) -> Vec<i64> {
    let value = |i: usize| match i {
        0 => i64::MIN,
        1 => i64::MAX,
        _ => (i * i + 1) as i64,
    };
    (0..count).map(|i| value(i % distinct)).collect()
}

/// As many values, each one of a few.
pub fn some_of(random: &mut Random, few: &[i64], count: usize) -> Vec<i64> {
    (0..count).map(|_| random.pick(few)).collect()
}

/// The least width for the last code of so many entries.
pub fn width(entries: usize) -> usize {
    (0..)
        .find(|&width| entries <= 1 << width)
        .expect("some width")
}

/// The column of these values with a table of them, whether it is shorter than edition 1 or not.
pub fn parts(values: &[i64]) -> Parts {
    let ids = ids(values.len());
    let plain = signalfern::write_to_vec(&ids, values, Edition::Plain, 9).unwrap();
    let table = distinct(values);
    let codes: Vec<u64> = (values.iter())
        .map(|value| table.binary_search(value).expect("an entry") as u64)
        .collect();
    with_codes(Parts::of(&plain), &table, &codes)
}

/// A column with another table and other codes.
pub fn with_codes(mut column: Parts, table: &[i64], codes: &[u64]) -> Parts {
    let width = width(table.len());
    column.numbers[parts::EDITION] = 4;
    column.numbers[parts::WIDTH] = width as u64;
    column.numbers[parts::LEAST] = 0;
    column.numbers[parts::STEP] = table.len() as u64;
    column.values = table.iter().flat_map(|entry| entry.to_le_bytes()).collect();
    let mut packed = vec![0; (codes.len() * width).div_ceil(8)];
    for (i, code) in codes.iter().enumerate() {
        for k in (0..width).filter(|k| code >> (width - 1 - k) & 1 == 1) {
            let j = i * width + k;
            packed[j / 8] |= 128 >> (j % 8);
        }
    }
    column.values.extend(packed);
    column.numbers[parts::VALUE_BYTES] = column.values.len() as u64;
    column
}

/// The value of an ordinal by a look-up, or the refusal.
#[track_caller]
pub fn value(bytes: &[u8], ordinal: usize) -> Result<i64, Refusal> {
    match same::look_up(bytes, 3 * ordinal as u32)? {
        Answer::Found {
            ordinal: o, value, ..
        } => {
            assert_eq!(o, ordinal as u64);
            Ok(value)
        }
        Answer::Absent { .. } => panic!("ordinal {ordinal} is listed"),
    }
}
