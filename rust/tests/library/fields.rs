//! One column that has every field, and each field with a single fault: every call beside the
//! reference, and where document 01 leaves no choice every change refused.

use std::ops::Range;

use crate::common::damage::Tally;
use crate::common::parts::{self, Parts};
use crate::common::{same, Random, EDITIONS};
use signalfern::{Edition, Refusal, MAX_ID};

/// Ids 0 and 1 of block 0, and 4096 of block 2: sparse and dense, a missing block, two ranks (p 15),
/// four jump entries, and spare bits. Stored numbers have three bits, in edition 2 two (3 times 4098 is 2 short
/// of bytes, and 2 times 4098 is 4 short). In edition 4 they are codes of five values.
fn column(edition: Edition) -> (Vec<u8>, Vec<u32>) {
    let mut random = Random::new(30);
    let mut ids = vec![0, 1];
    ids.extend((0..4096).map(|i| 131_072 + 16 * i + (i & 7)));
    let greatest = if edition == Edition::Lucene { 3 } else { 7 };
    let mut values: Vec<i64> = (ids.iter())
        .map(|_| random.below(greatest) as i64 - 3)
        .collect();
    values[..3].copy_from_slice(&[-3, greatest as i64 - 4, -2]);
    if edition == Edition::Table {
        let five = [-9, 0, 5, 1 << 40, i64::MAX];
        (values.iter_mut()).for_each(|value| *value = five[(*value + 3) as usize % 5]);
    }
    (same::write_exactly(&ids, &values, edition, 15), ids)
}

/// Each change of one byte that flips a bit, and three more.
const CHANGES: [u8; 11] = [1, 2, 4, 8, 16, 32, 64, 128, 0xFF, 0x0F, 0x55];

struct Field {
    name: &'static str,
    bytes: Range<usize>,
    /// Of a long field every so many bytes.
    step: usize,
    /// Whether the rest of the column fixes these bytes.
    fixed: bool,
}

fn field(name: &'static str, from: usize, len: usize, step: usize, fixed: bool) -> Field {
    let bytes = from..from + len;
    Field {
        name,
        bytes,
        step,
        fixed,
    }
}

/// The fields in order; the id section starts after the header's `h` bytes, the values at `v` with the
/// `front` bytes of the directory of edition 3, or of the table of edition 4.
fn fields(edition: Edition, h: usize, v: usize, front: usize, end: usize) -> [Field; 11] {
    let packed = v + front;
    let directory = edition == Edition::Runs;
    [
        field("header", 0, h, 1, false),
        // Number and count of each block: another count has other data, and the jump entries know
        // the number.
        field("head of the sparse block", h, 4, 1, true),
        field("places", h + 4, 4, 1, false),
        field("head of the dense block", h + 8, 4, 1, true),
        field("rank table", h + 12, 4, 1, true),
        // One bit more or less is another count; a change of several bits can be another column.
        field("words", h + 16, 8192, 5, false),
        field("end block", h + 8208, 6, 1, true),
        field("jump entries", h + 8214, 32, 1, true),
        // The values say what their run's numbers are. Another entry can be another column.
        field("directory or table", v, front, 1, directory),
        field("values", packed, end - packed - 1, 3, false),
        field("last value and spare bits", end - 1, 1, 1, false),
    ]
}

#[test]
fn each_field_alone() {
    fields_of(Edition::Plain, 1537, 0b11);
}

#[test]
fn each_field_of_edition_2() {
    fields_of(Edition::Lucene, 1025, 0b1111_0000);
}

#[test]
fn each_field_of_edition_3() {
    fields_of(Edition::Runs, 25 + 1537, 0b11);
}

#[test]
fn each_field_of_edition_4() {
    fields_of(Edition::Table, 40 + 1537, 0b11);
}

/// The bytes of its value section, and the spare bits of the last of them.
fn fields_of(edition: Edition, value_bytes: usize, spare: u8) {
    let (column, ids) = column(edition);
    let parts = Parts::of(&column);
    let h = column.len() - parts.ids.len() - parts.values.len();
    let v = h + parts.ids.len();
    assert_eq!((parts.ids.len(), parts.values.len()), (8246, value_bytes));
    assert_eq!(parts.numbers[parts::JUMPS], 4);
    let asked = [0, 1, 2, 65_536, ids[2], ids[2000], ids[4097], MAX_ID + 1];
    let mut tally = Tally::default();
    for field in fields(edition, h, v, parts.packed_at(), column.len()) {
        for at in field.bytes.step_by(field.step) {
            for change in CHANGES {
                let mut bytes = column.clone();
                bytes[at] ^= change;
                tally.try_all(&bytes, &asked);
                let one_bit_of_the_words = field.name == "words" && change.is_power_of_two();
                if field.fixed || one_bit_of_the_words {
                    let refused = same::check(&bytes);
                    assert_eq!(refused, Err(Refusal::Damaged), "{} {at}", field.name);
                }
            }
        }
    }
    // The spare bits are 0, each of them.
    for change in (1..=255).filter(|change| change & !spare == 0) {
        let mut bytes = column.clone();
        *bytes.last_mut().unwrap() ^= change;
        assert_eq!(same::check(&bytes), Err(Refusal::Damaged));
    }
    tally.has(&[0, 9, 10, 11, 12, 13, 14, 15]);
}

#[test]
fn cut_or_lengthened() {
    EDITIONS.into_iter().for_each(cut_or_lengthened_of);
}

fn cut_or_lengthened_of(edition: Edition) {
    let (mut column, ids) = column(edition);
    let asked = [1, ids[2000]];
    let mut tally = Tally::default();
    // Within the header a number is cut off; after it the bytes are too few.
    for len in (0..40).chain((40..column.len()).step_by(97)) {
        tally.try_all(&column[..len], &asked);
        let short = same::check(&column[..len]).unwrap_err();
        assert!(
            matches!(short, Refusal::Short { .. } | Refusal::Length),
            "{len}"
        );
    }
    column.push(0);
    assert_eq!(same::check(&column), Err(Refusal::Length));
    tally.try_all(&column, &asked);
}

/// The column of that many full blocks from block 0 on, each value 41: the header numbers are 1, n, 9,
/// L, J = blocks + 1, 0, 82, 1, 0, and entry k says 65536k ids before and start 4k.
fn full_blocks(blocks: u32) -> Parts {
    let mut ids = Vec::new();
    for number in 0..blocks as u16 {
        ids.extend(number.to_le_bytes());
        ids.extend([0xFF, 0xFF]);
    }
    ids.extend([0xFF, 0x7F, 0, 0, 0xFF, 0xFF]);
    for number in 0..=blocks {
        ids.extend((number << 16).to_le_bytes());
        ids.extend((4 * number).to_le_bytes());
    }
    let (count, jumps) = (u64::from(blocks) << 16, u64::from(blocks) + 1);
    Parts {
        numbers: [1, count, 9, ids.len() as u64, jumps, 0, 82, 1, 0],
        ids,
        values: Vec::new(),
    }
}

#[test]
fn columns_of_full_blocks() {
    // 100 blocks: 13 bytes of header (n four, L two), 400, 6 and 808. The most blocks: 17 (n five, L
    // three, J three), 131064, 6 and 262136.
    for (blocks, bytes) in [(100, 1227), (32_766, 393_223)] {
        let parts = full_blocks(blocks);
        let mut column = parts.bytes();
        assert_eq!(column.len(), bytes);
        let count = u64::from(blocks) << 16;
        assert_eq!(same::check(&column), Ok(count));
        let needed = count as usize;
        assert_eq!(same::read(&column, 4, 4), Err(Refusal::Buffer { needed }));
        let last = (blocks << 16) - 1;
        for id in [0, 65_535, 65_536, last / 2, last] {
            let found = signalfern_reference::Answer::Found {
                ordinal: u64::from(id),
                value: 41,
                words: 0,
                probes: 0,
            };
            assert_eq!(same::look_up(&column, id), Ok(found));
        }
        // The last entry, the first and one between say another ordinal or another start.
        let entries = bytes - 8 * (blocks as usize + 1);
        for at in [bytes - 8, bytes - 4, entries, entries + 4, entries + 404] {
            column[at] ^= 1;
            assert_eq!(same::check(&column), Err(Refusal::Damaged), "{at}");
            column[at] ^= 1;
        }
    }
    // The writer gives the smaller one.
    let ids: Vec<u32> = (0..6_553_600).collect();
    let written = signalfern::write_to_vec(&ids, &vec![41; ids.len()], Edition::Plain, 9);
    assert!(written.unwrap() == full_blocks(100).bytes());
}
