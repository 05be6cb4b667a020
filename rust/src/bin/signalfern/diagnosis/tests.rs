//! The diagnosis on columns with one thing changed, where the answer is known, and on many more
//! where it must only make sense.

use signalfern::{Edition, Refusal};

use super::{damage, Diagnosis};
use crate::blocks::Section;
use crate::header::Header;

/// Columns of each edition with every kind of block, with and without ranks, and of several widths.
fn columns() -> Vec<Vec<u8>> {
    let dense: Vec<u32> = (0..65_536).filter(|id| id % 7 != 3).collect();
    let all: Vec<u32> = (0..65_536).collect();
    let some: Vec<u32> = (0..300).map(|id| id * 211).collect();
    let in_block = |number: u32, places: &[u32]| -> Vec<u32> {
        places.iter().map(|place| number << 16 | place).collect()
    };
    let lists: [Vec<u32>; 6] = [
        vec![],
        vec![0, 2, 7],
        dense.clone(),
        [in_block(1, &some), in_block(4, &dense), in_block(5, &some)].concat(),
        [in_block(0, &all), in_block(1, &all), in_block(9, &some)].concat(),
        [some.clone(), in_block(2, &dense), in_block(3, &dense)].concat(),
    ];
    let mut columns = Vec::new();
    for edition in [
        Edition::Plain,
        Edition::Lucene,
        Edition::Runs,
        Edition::Table,
    ] {
        for (ids, step) in lists.iter().zip([1, 5, 3, 1, 1, 1000]) {
            for power in [0, 7, 9, 15] {
                let mut values: Vec<i64> = (ids.iter())
                    .map(|id| step * i64::from(id * 31 % 97))
                    .collect();
                if edition == Edition::Table {
                    // Few that lie far apart.
                    let few = [i64::MIN, -step, 0, step, 1 << 50];
                    (values.iter_mut()).for_each(|value| *value = few[(*value % 5) as usize]);
                }
                columns.push(signalfern::write_to_vec(ids, &values, edition, power).unwrap());
            }
            let equal = vec![-5; ids.len()];
            columns.push(signalfern::write_to_vec(ids, &equal, edition, 9).unwrap());
        }
    }
    columns
}

pub fn finding(bytes: &[u8]) -> (u64, String) {
    assert_eq!(signalfern::check(bytes), Err(Refusal::Damaged));
    let header = Header::parse(bytes).unwrap();
    let finding = damage::find(&header, bytes).expect("a place is found");
    (finding.at, format!("{}: {}", finding.part, finding.why))
}

#[test]
fn sound_columns_have_no_wrong_place() {
    for column in columns() {
        let header = Header::parse(&column).unwrap();
        assert_eq!(damage::find(&header, &column), None);
        assert_eq!(header.broken_rule(), None);
    }
}

/// Every refused change of one bit is explained, and every place named lies in the file.
#[test]
fn every_flipped_bit_is_explained() {
    let mut refused = 0;
    for mut column in columns() {
        let step = column.len().div_ceil(600);
        for at in (0..column.len())
            .step_by(step)
            .chain(0..column.len().min(60))
        {
            column[at] ^= 1 << (at % 8);
            if let Err(refusal) = signalfern::check(&column) {
                refused += 1;
                let len = Some(column.len() as u64);
                let diagnosis = Diagnosis::explain(&column, len, refusal);
                let text = diagnosis.lines.join("\n");
                assert!(!text.is_empty() && !text.contains("could not be found"));
                assert!(!diagnosis.advice.is_empty());
                if refusal == Refusal::Damaged {
                    assert!(finding(&column).0 < column.len() as u64);
                }
            }
            column[at] ^= 1 << (at % 8);
        }
    }
    assert!(refused > 3000, "{refused}");
}

/// In the id section a flipped bit is found where it is: in a column with jump entries and ranks
/// each number is told twice.
#[test]
fn flipped_bits_are_found_where_they_are() {
    let column = &columns()[3 * 5 + 2];
    let header = Header::parse(column).unwrap();
    let section = Section::of(&header, column);
    let mut found = 0;
    let mut tried = 0;
    let from = header.len();
    for at in (from..from + header.id_bytes as usize).step_by(13) {
        let mut bytes = column.clone();
        bytes[at] ^= 4;
        if signalfern::check(&bytes).is_ok() {
            continue;
        }
        tried += 1;
        let (place, text) = finding(&bytes);
        let distance = (at as u64).abs_diff(place);
        // A stride of 512 places is 64 bytes; a rank may be taken for the stride before it.
        found += usize::from(distance < 64);
        let in_blocks = at - from < section.blocks.len();
        assert!(in_blocks != text.starts_with("jump entry"), "{at}: {text}");
    }
    assert!(
        100 * found > 95 * tried && tried > 500,
        "{found} of {tried}"
    );
}

/// A sparse block 1 of four ids, and a dense block 2 of five thousand.
fn two_blocks() -> Vec<u8> {
    let ids: Vec<u32> = (65_536..65_540).chain(131_072..136_072).collect();
    let values = ids.iter().map(|id| i64::from(10 * (id % 50)));
    signalfern::write_to_vec(&ids, &values.collect::<Vec<i64>>(), Edition::Plain, 9).unwrap()
}

/// The bits flipped at a byte of the id section, and the byte and the words of the finding.
const FLIPPED: [(usize, u8, usize, &str); 8] = [
    (
        0,
        2,
        0,
        "head of block 3 (sparse): number 3, and the jump entries tell 1",
    ),
    (
        2,
        1,
        0,
        "head of block 1 (sparse): 3 ids, and the jump entries tell 4",
    ),
    (
        6,
        3,
        6,
        "places of block 1 (sparse): 2 and 2, the places 2 and 3",
    ),
    // Block 2 starts at 12: head 4, ranks 256, bitmap 8192.
    (
        14,
        1,
        12,
        "head of block 2 (dense): 4999 ids, and the jump entries tell 5000",
    ),
    (
        16 + 7,
        1,
        16 + 6,
        "rank 3 of block 2 (dense): 1537, and 1536 ones",
    ),
    (
        272 + 80,
        1,
        272 + 64,
        "words 8 to 15, places 512 to 1023: 511 ones, and 512 are told",
    ),
    // The end block, and four jump entries.
    (
        8465,
        1,
        8465,
        "end block: FF 7E 00 00 FF FF where FF 7F 00 00 FF FF",
    ),
    (
        8470 + 16,
        1,
        8470 + 16,
        "jump entry 2: 5 ids before, start 12; the blocks give 4 and 12",
    ),
];

#[test]
fn places_are_named() {
    let column = two_blocks();
    let start = Header::parse(&column).unwrap().len();
    for (at, bits, place, words) in FLIPPED {
        let mut bytes = column.clone();
        bytes[start + at] ^= bits;
        let (found, text) = finding(&bytes);
        assert!(text.contains(words), "{at}: {text}");
        assert_eq!(found, (start + place) as u64, "{text}");
    }
}

#[test]
fn values_that_cannot_be() {
    // Stored 3, 1, 0 at width 2, in byte 26; w stands at byte 5, the smallest value at 6, g at 8.
    let column = signalfern::write_to_vec(&[0, 2, 7], &[150, 140, 135], Edition::Plain, 9).unwrap();
    for (byte, place, words) in [
        (
            0xD1,
            26,
            "spare bits after the last value: D1, and its 2 low bits must be 0",
        ),
        // Stored 3, 1, 1; then 0, 1, 0.
        (
            0xD4,
            6,
            "smallest value in the header: 135, and no value is so small",
        ),
        (
            0x10,
            5,
            "width (w) in the header: 2, and the greatest stored, 1, needs 1 bits",
        ),
        // Stored 2, 0, 2; then 3, 0, 0.
        (
            0x88,
            26,
            "stored numbers: 2 divides them all, so the writer would give divisor 10 and not 5",
        ),
        (
            0xC0,
            26,
            "stored numbers: 3 divides them all, so the writer would give divisor 15 and not 5",
        ),
    ] {
        let mut bytes = column.clone();
        bytes[26] = byte;
        let (at, text) = finding(&bytes);
        assert_eq!(at, place, "{text}");
        assert!(text.contains(words), "{text}");
    }
    // In edition 2 the same are 07, from the low end on.
    let packed = signalfern::write_to_vec(&[0, 2, 7], &[150, 140, 135], Edition::Lucene, 9);
    let packed = packed.unwrap();
    for (byte, place, words) in [
        (
            0x47,
            26,
            "spare bits after the last value: 47, and its 2 high bits must be 0",
        ),
        // Stored 3, 1, 1; then 0, 1, 0; then 2, 0, 2.
        (
            0x17,
            6,
            "smallest value in the header: 135, and no value is so small",
        ),
        (
            0x04,
            5,
            "width (w) in the header: 2, and the greatest stored, 1, needs 1 bits",
        ),
        (
            0x22,
            26,
            "stored numbers: 2 divides them all, so the writer would give divisor 10 and not 5",
        ),
    ] {
        let mut bytes = packed.clone();
        assert_eq!(bytes[26], 0x07);
        bytes[26] = byte;
        let (at, text) = finding(&bytes);
        assert_eq!(at, place, "{text}");
        assert!(text.contains(words), "{text}");
    }
    // Another divisor makes another column: 156, 142, 135.
    let mut bytes = column;
    bytes[8] = 7;
    assert_eq!(signalfern::check(&bytes), Ok(3));
}

#[test]
fn a_value_that_does_not_fit() {
    // Stored 0, 200, 101 at width 8, and 200 is as much as fits.
    let greatest = i64::MAX;
    let values = [greatest - 200, greatest, greatest - 99];
    let mut bytes = signalfern::write_to_vec(&[1, 2, 3], &values, Edition::Plain, 9).unwrap();
    let second = bytes.len() - 2;
    bytes[second] = 201;
    let (at, text) = finding(&bytes);
    assert_eq!(at, second as u64);
    assert!(
        text.contains("value 1 (from 0)") && text.contains("does not fit"),
        "{text}"
    );
}

#[test]
fn any_bytes_are_explained() {
    let mut random = 7_u64;
    let mut next = move || {
        random = random
            .wrapping_mul(6364136223846793005)
            .wrapping_add(1442695040888963407);
        (random >> 33) as usize
    };
    for column in columns() {
        for _ in 0..40 {
            let mut bytes = column.clone();
            for _ in 0..next() % 4 {
                let at = next() % bytes.len().min(if next() % 2 == 0 { 24 } else { 1 << 30 });
                bytes[at] = next() as u8;
            }
            bytes.truncate(if next() % 3 == 0 {
                next() % bytes.len()
            } else {
                bytes.len()
            });
            bytes.resize(
                bytes.len() + if next() % 3 == 0 { next() % 9 } else { 0 },
                10,
            );
            if let Err(refusal) = signalfern::check(&bytes) {
                for len in [Some(bytes.len() as u64), None, Some(u64::MAX)] {
                    let diagnosis = Diagnosis::explain(&bytes, len, refusal);
                    assert!(!diagnosis.lines.is_empty(), "{refusal}");
                }
            }
        }
    }
}
