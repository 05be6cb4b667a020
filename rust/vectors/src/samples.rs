//! Lists of pairs and their columns, from which the vectors are made.

use std::sync::OnceLock;

use crate::given::{bits, cycle, drawn, steps, Numbers};
use crate::recipe::Noise;
use crate::{Json, Maker, Reference};

/// A list of pairs, how its column is to be written, and the column.
#[derive(Clone)]
pub struct Sample {
    pub about: String,
    pub ids: Numbers,
    pub values: Numbers,
    pub edition: u32,
    pub power: u32,
    pub bytes: Vec<u8>,
}

pub const POWERS: [u32; 10] = [0, 7, 8, 9, 10, 11, 12, 13, 14, 15];
pub const EDITIONS: [u32; 4] = [1, 2, 3, 4];
pub const MAX_ID: u32 = 2_147_352_575;
const LEAST: i128 = i64::MIN as i128;
const MOST: i128 = i64::MAX as i128;

/// The bytes that a writer makes, by the room that it asks for.
pub fn written(write: impl Fn(&mut [u8]) -> Result<u64, (u64, u64)>) -> Vec<u8> {
    let mut out = match write(&mut []) {
        Err((6, needed)) => vec![0; needed as usize],
        other => panic!("{other:?} without room"),
    };
    write(&mut out).expect("room for it");
    out
}

pub fn sample(about: &str, ids: &Numbers, values: &Numbers, edition: u32, power: u32) -> Sample {
    let (list, scores) = (ids.ids(), values.values());
    let bytes = written(|out| Reference.write(&list, &scores, edition, power, out));
    Sample {
        about: format!("{about}, edition {edition}, power {power}"),
        ids: ids.clone(),
        values: values.clone(),
        edition,
        power,
        bytes,
    }
}

fn in_each_edition(about: &str, ids: &[u32], values: &[i128], power: u32) -> Vec<Sample> {
    let (ids, values) = (
        Numbers::plain(ids.iter().copied()),
        Numbers::plain(values.iter().copied()),
    );
    EDITIONS
        .map(|edition| sample(about, &ids, &values, edition, power))
        .into()
}

/// Samples that are made once.
type Made = OnceLock<Vec<Sample>>;

/// Short columns, each edition.
pub fn small() -> Vec<Sample> {
    static MADE: Made = Made::new();
    MADE.get_or_init(make_small).clone()
}

fn make_small() -> Vec<Sample> {
    let far = [
        (MOST, LEAST),
        (LEAST, 0),
        (0, MOST),
        (-5, 3),
        (1 << 60, 1 << 61),
    ];
    let mut made = in_each_edition("no pairs", &[], &[], 9);
    made.extend(in_each_edition(
        "the first column",
        &[0, 2, 7],
        &[150, 140, 135],
        9,
    ));
    made.extend(in_each_edition("one pair in block 1", &[65_536], &[-1], 0));
    made.extend(in_each_edition(
        "equal values",
        &[4, 5, 6, 70_000],
        &[-77; 4],
        7,
    ));
    made.extend(in_each_edition(
        "a table",
        &[0, 2, 7, 9],
        &[1, LEAST, 0, 1],
        9,
    ));
    made.extend(in_each_edition(
        "six and a great one",
        &[1, 3, 5, 8, 9],
        &[5, 6, 5, 6, 3000],
        9,
    ));
    made.extend(in_each_edition(
        "a divisor",
        &[2, 65_535, 65_536],
        &[7, 10, 22],
        15,
    ));
    made.extend(in_each_edition(
        "below 0",
        &[9, 131_072, 131_080],
        &[-9, -2, 5],
        12,
    ));
    made.extend(in_each_edition(
        "three blocks of five",
        &[3, 10, 65_541, 65_542, 262_144],
        &[-2, 5, 1, 5, 1 << 40],
        8,
    ));
    for (a, b) in far {
        made.extend(in_each_edition("two values", &[0, 1, 3], &[a, b, a], 9));
        made.extend(in_each_edition(
            "two values and 0",
            &[0, 1, 3, 4],
            &[a, b, 0, 0],
            9,
        ));
    }
    made
}

/// Each width from 0 to 64: five values with a difference that just needs it.
pub fn widths() -> Vec<Sample> {
    static MADE: Made = Made::new();
    MADE.get_or_init(make_widths).clone()
}

fn make_widths() -> Vec<Sample> {
    let ids = Numbers::plain([1_u32, 4, 9, 16, 25]);
    let mut made = Vec::new();
    for width in 0..=64 {
        let most = (1_i128 << width) - 1;
        let least = if width < 63 { -17 } else { LEAST };
        let middle = if width > 0 { least + 1 } else { least };
        let values = Numbers::plain([
            least + most / 2,
            least,
            least + most,
            middle,
            least + most / 3,
        ]);
        for edition in [1, 2, 3] {
            made.push(sample(&format!("width {width}"), &ids, &values, edition, 9));
        }
    }
    made
}

/// Tables of so many entries, wide enough for each width of a code.
pub fn tables() -> Vec<Sample> {
    static MADE: Made = Made::new();
    MADE.get_or_init(make_tables).clone()
}

fn make_tables() -> Vec<Sample> {
    let mut made = Vec::new();
    for entries in [
        2, 3, 4, 5, 8, 9, 16, 17, 32, 33, 64, 65, 128, 129, 255, 256, 257,
    ] {
        let distinct: Vec<i128> = (0..entries)
            .map(|i| (i * i * i - 40 * i) * (1 << 34) + i)
            .collect();
        let ids = Numbers::of(vec![steps(3, 2, 600)]);
        let values = Numbers::of(vec![cycle(&distinct, 600)]);
        made.push(sample(&format!("{entries} values"), &ids, &values, 4, 9));
    }
    made
}

/// The bitmap of the noise after a seed.
pub fn noise_bitmap(seed: u32) -> Vec<u8> {
    Noise(seed).take(8192).collect()
}

/// A block of the ids whose bits are set.
fn bitmap_block(block: i128, bitmap: &[u8]) -> Json {
    bits(bitmap, 65_536 * block)
}

/// Blocks on both sides of each line between kinds: their ids, by how many they are.
pub fn counts(block: i128) -> Vec<(usize, Numbers)> {
    let from = 65_536 * block;
    let mut hole = vec![0xFF; 8192];
    hole[100] = 0x7F;
    let full = |ones: usize| {
        let mut bitmap = vec![0xFF; ones / 8];
        bitmap.push((1_u8 << (ones % 8)) - 1);
        bitmap.resize(8192, 0);
        bitmap
    };
    let mut lists = vec![
        Numbers::of(vec![steps(from + 5, 16, 4095)]),
        Numbers::of(vec![steps(from + 15, 16, 4096)]),
        Numbers::of(vec![steps(from, 16, 4096), steps(from + 65_525, 1, 1)]),
        Numbers::of(vec![bitmap_block(block, &full(61_440))]),
        Numbers::of(vec![bitmap_block(block, &full(61_441))]),
        Numbers::of(vec![bitmap_block(block, &hole)]),
        Numbers::of(vec![steps(from, 1, 65_536)]),
    ];
    lists.push(Numbers::of(vec![bitmap_block(block, &noise_bitmap(11))]));
    let count = |ids: Numbers| (ids.numbers.len(), ids);
    lists.into_iter().map(count).collect()
}

/// Values whose packed bytes repeat.
pub fn repeating(count: usize) -> Numbers {
    Numbers::of(vec![cycle(&[-4, 3, 10, 17, -4, 24, 31, 38], count)])
}

/// Dense blocks at each power, and each count at some.
pub fn dense() -> Vec<Sample> {
    static MADE: Made = Made::new();
    MADE.get_or_init(make_dense).clone()
}

fn make_dense() -> Vec<Sample> {
    let mut made = Vec::new();
    for (index, power) in POWERS.into_iter().enumerate() {
        let ids = Numbers::of(vec![bitmap_block(1, &noise_bitmap(index as u32 + 1))]);
        let values = repeating(ids.numbers.len());
        made.push(sample("a dense block", &ids, &values, 1, power));
    }
    for (count, ids) in counts(0) {
        let about = format!("a block of {count}");
        made.push(sample(&about, &ids, &repeating(count), 1, 9));
        made.push(sample(&about, &ids, &repeating(count), 2, 0));
    }
    made.push(mixed(1, 9));
    made.push(mixed(3, 0));
    made
}

/// Sparse, dense, missing, all, dense.
pub fn mixed(edition: u32, power: u32) -> Sample {
    let ids = Numbers::of(vec![
        Numbers::plain([1_u32, 5]).given,
        bitmap_block(1, &noise_bitmap(3)),
        steps(3 * 65_536, 1, 65_536),
        steps(4 * 65_536 + 15, 16, 4096),
    ]);
    let values = repeating(ids.numbers.len());
    sample(
        "all kinds and a missing block",
        &ids,
        &values,
        edition,
        power,
    )
}

/// One run and more.
pub fn runs() -> Vec<Sample> {
    static MADE: Made = Made::new();
    MADE.get_or_init(make_runs).clone()
}

fn make_runs() -> Vec<Sample> {
    let wide = [LEAST, MOST, 0, -1, 1, LEAST, MOST, 7];
    let lists = [
        ("one whole run", vec![cycle(&[3, 9, 4], 16_384)]),
        (
            "a run of one after it",
            vec![cycle(&[3, 9, 4, 4], 16_384), cycle(&[-2], 1)],
        ),
        (
            "one great value",
            vec![
                cycle(&[0, 1, 2, 3, 4, 5, 6, 7], 39_000),
                cycle(&[1_000_000], 1),
                cycle(&[1, 2, 3, 4, 5, 6, 7, 0], 999),
            ],
        ),
        (
            "four runs of four kinds",
            vec![
                cycle(&[40, 60, 80, 100], 16_384),
                cycle(&[20], 16_384),
                cycle(&[-9_000_000, -20, -40, 0], 16_384),
                cycle(&[500, 520, 540, 500, 500, 560, 580, 640], 16_384),
            ],
        ),
        (
            "the widest in the second run",
            vec![cycle(&[5], 16_384), cycle(&wide, 16_384), cycle(&[6, 7], 2)],
        ),
        (
            "a divisor of 10 here and of 4 there",
            vec![
                cycle(&[0, 10, 20, 30], 16_384),
                cycle(&[1000, 1004, 1012], 3),
            ],
        ),
    ];
    let made = lists.map(|(about, pieces)| {
        let values = Numbers::of(pieces);
        let ids = Numbers::of(vec![steps(0, 1, values.numbers.len())]);
        sample(about, &ids, &values, 3, 9)
    });
    made.into()
}

/// Long lists for the writer alone: values and ids without a pattern.
pub fn drawn_lists() -> Vec<(String, Numbers, Numbers)> {
    let mut made = Vec::new();
    for (seed, size, modulus, times, plus, count) in [
        (21_u32, 1, 256, 1, 0, 50),
        (22, 2, 1000, 3, -500, 100),
        (23, 8, 1 << 64, 1, LEAST, 64),
        (24, 5, 1 << 37, 1 << 20, -(1 << 40), 200),
        (25, 1, 3, 1 << 50, -7, 300),
        (26, 7, 1 << 55, 2, 1, 5000),
        (27, 1, 200, 1 << 40, 0, 5000),
        (28, 2, 1 << 12, 1, 0, 33_000),
    ] {
        let values = Numbers::of(vec![drawn(seed, (size, modulus), times, plus, count)]);
        let ids = match count {
            33_000 => vec![steps(60_000, 1, count)],
            _ => vec![steps(i128::from(seed) * 1000, 777, count)],
        };
        made.push((
            format!("drawn values, seed {seed}"),
            Numbers::of(ids),
            values,
        ));
    }
    made
}

/// The column of all ids with one value: 32766 full blocks, 32767 jump entries. (Told in bytes: its list would
/// take 8 GB.)
pub fn every_id() -> Vec<u8> {
    let mut section = Vec::new();
    for block in 0..=32_765_u16 {
        section.extend(block.to_le_bytes());
        section.extend([0xFF, 0xFF]);
    }
    section.extend([0xFF, 0x7F, 0, 0, 0xFF, 0xFF]);
    for block in 0..=32_766_u32 {
        section.extend((block << 16).to_le_bytes());
        section.extend((block * 4).to_le_bytes());
    }
    let header = [
        1,
        u64::from(MAX_ID) + 1,
        9,
        section.len() as u64,
        32_767,
        0,
        10,
        1,
        0,
    ];
    [crate::damage::header_of(&header), section].concat()
}
