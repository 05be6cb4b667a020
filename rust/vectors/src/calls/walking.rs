//! read_from, pair_at, first_between_from, and these in a column opened before.

use super::asking::asked;
use super::opened::{given, of_small, BROKEN};
use super::reading::{broken_headers, changed_bytes, damaged_long};
use super::searching::ranges;
use super::stepping::{for_the_steps, runs_for_the_steps};
use super::{id, Vectors};
use crate::damage::{put, Random};
use crate::given::{bytes, number};
use crate::samples::{self, MAX_ID};

/// Places for ids and for values: few, none, and more in one list than in the other.
const ROOMS: [(usize, usize); 7] = [(3, 3), (1, 4), (0, 0), (9, 2), (40, 40), (5, 0), (2, 2)];

pub fn read_from(vectors: &mut Vectors) {
    let mut random = Random(41);
    let mut turn = 0;
    let mut add = |about: &str, column: &[u8], from: u32| {
        let (ids_room, values_room) = ROOMS[turn % ROOMS.len()];
        turn += 1;
        let given = [
            ("bytes", bytes(column)),
            ("id", id(from)),
            ("ids_room", number(ids_room as i128)),
            ("values_room", number(values_room as i128)),
        ];
        vectors.add(about, given);
    };
    let sound = [
        samples::small(),
        samples::dense(),
        samples::runs(),
        samples::tables(),
    ];
    for sample in sound.iter().flatten() {
        for from in asked(sample, &mut random, 3).into_iter().skip(1).take(1) {
            add(&sample.about, &sample.bytes, from);
        }
    }
    for sample in samples::widths().iter().step_by(11) {
        add(&sample.about, &sample.bytes, 0);
    }
    let every = samples::every_id();
    for from in [0, 65_534, 1_000_000_007, MAX_ID - 1, MAX_ID] {
        add("all ids", &every, from);
    }
    for _ in 0..3 {
        add("ID before SHORT", &[], MAX_ID + 1);
    }
    add("EDITION before a bad number", &[5, 0x80, 0], 2);
    for (about, broken) in broken_headers().iter().step_by(17) {
        add(about, broken, 2);
    }
    for (about, damaged, ids) in for_the_steps().into_iter().step_by(3) {
        for &from in ids.iter().take(1) {
            // Some before the damage too, so that pairs come first.
            add(&about, &damaged, from.saturating_sub(from % 3));
        }
    }
    for entries in [[9_u8, 2, 7], [7, 2, 0], [2, 9, 7], [5, 5, 1]] {
        let [a, b, c] = entries;
        let damaged = put(&samples::small()[4].bytes, 14, &[a, 0, b, 0, c, 0]);
        for from in [0, 3, 8] {
            add(&format!("entries {a}, {b}, {c}"), &damaged, from);
        }
    }
    for (about, damaged) in changed_bytes().iter().step_by(23) {
        let from = random.of(&[0, 0, 1, 3, 7, 9, 65_536, 65_541, 131_072, 262_144]);
        add(about, damaged, from);
    }
    for (about, damaged) in damaged_long().iter().step_by(13) {
        let from = random.of(&[0, 5, 15, 16_383, 16_399, 65_535, 70_001, 131_071]);
        add(about, damaged, from);
    }
}

pub fn pair_at(vectors: &mut Vectors) {
    let mut random = Random(43);
    let mut add = |about: &str, column: &[u8], ordinal: u64| {
        vectors.add(
            about,
            [("bytes", bytes(column)), ("ordinal", number(ordinal))],
        );
    };
    let sound = [
        samples::small(),
        samples::dense(),
        samples::runs(),
        samples::tables(),
    ];
    for (index, sample) in sound.iter().flatten().enumerate() {
        let count = sample.ids.ids().len();
        let any = random.below(count.max(1));
        let ordinal = if index % 7 == 0 { count } else { any };
        add(&sample.about, &sample.bytes, ordinal as u64);
    }
    let every = samples::every_id();
    for ordinal in [0, 65_536, 1_000_000_007, u64::from(MAX_ID), u64::MAX] {
        add("all ids", &every, ordinal);
    }
    add("EDITION before a bad number", &[5, 0x80, 0], u64::MAX);
    for (about, broken) in broken_headers().iter().step_by(17) {
        add(about, broken, 2);
    }
    for (index, (about, damaged, ids)) in for_the_steps().into_iter().enumerate() {
        // Each entry that leads to another block, and some of the rest.
        if index % 3 > 0 && !about.ends_with("another start") {
            continue;
        }
        // The ordinal of an id is at most the id.
        let any = random.below(1 + ids[0].min(40_000) as usize) as u64;
        let ordinal = [any, u64::from(ids[0] % 5)][index % 2];
        add(&about, &damaged, ordinal);
    }
    for (about, damaged) in changed_bytes().iter().step_by(19) {
        add(about, damaged, random.of(&[0, 1, 2, 3, 4, 5, 6]));
    }
    for (about, damaged) in damaged_long().iter().step_by(13) {
        let ordinal = random.of(&[0, 5, 600, 5000, 16_384, 30_000]);
        add(about, damaged, ordinal);
    }
}

pub fn first_between_from(vectors: &mut Vectors) {
    let mut random = Random(47);
    let mut add = |about: &str, column: &[u8], from: u64, (low, high): (i64, i64)| {
        let given = [
            ("bytes", bytes(column)),
            ("from", number(from)),
            ("low", number(low)),
            ("high", number(high)),
        ];
        vectors.add(about, given);
    };
    let small = samples::small();
    let of_runs = small.iter().filter(|it| it.edition == 3);
    for sample in of_runs.chain(&samples::runs()) {
        let count = sample.values.values().len() as u64;
        for range in ranges(sample, &mut random).into_iter().step_by(6) {
            let any = random.below(count as usize + 2) as u64;
            add(&sample.about, &sample.bytes, any, range);
        }
        for from in [16_383, 16_384, count.saturating_sub(1), count] {
            add(&sample.about, &sample.bytes, from, (i64::MIN, i64::MAX));
        }
    }
    for sample in small.iter().filter(|it| it.edition != 3).take(5) {
        let about = format!("{}: another edition", sample.about);
        add(&about, &sample.bytes, u64::MAX, (9, 0));
    }
    add("EDITION before a bad number", &[2, 0x80, 0], 7, (0, 9));
    let short = &small[6].bytes[..50];
    add("cut off, and LENGTH before none", short, u64::MAX, (9, 0));
    for (about, broken) in broken_headers().iter().step_by(13) {
        add(about, broken, 1, (0, 9));
    }
    for (about, damaged, ids) in runs_for_the_steps().into_iter().step_by(3) {
        for (from, range) in [
            (ids[0], (i64::MIN, i64::MAX)),
            (ids[1], (i64::MIN, i64::MAX)),
            (16_384, (1, 6)),
            (5, (700, 9000)),
        ] {
            add(&about, &damaged, from.into(), range);
        }
    }
}

pub fn read_from_in(vectors: &mut Vectors) {
    for (index, (about, header, column)) in of_small().into_iter().enumerate().step_by(2) {
        let (ids_room, values_room) = ROOMS[index / 2 % ROOMS.len()];
        let from = [0, 3, 0, 65_536, MAX_ID + 1][index / 2 % 5];
        let given = [
            ("column", given(&header)),
            ("bytes", bytes(&column)),
            ("id", id(from)),
            ("ids_room", number(ids_room as i128)),
            ("values_room", number(values_room as i128)),
        ];
        vectors.add(&about, given);
    }
}

pub fn pair_at_in(vectors: &mut Vectors) {
    for (index, (about, header, column)) in of_small().into_iter().enumerate().skip(1).step_by(2) {
        let ordinal = [0, 1, 3, 2, u64::MAX][index / 2 % 5];
        let given = [
            ("column", given(&header)),
            ("bytes", bytes(&column)),
            ("ordinal", number(ordinal)),
        ];
        vectors.add(&about, given);
    }
    let (about, header, column) = of_small().pop().expect("a broken one");
    let given = [
        ("column", given(&header)),
        ("bytes", bytes(&column)),
        ("ordinal", number(0)),
    ];
    vectors.add(&about, given);
}

pub fn first_between_from_in(vectors: &mut Vectors) {
    for (index, (about, header, column)) in of_small().into_iter().enumerate() {
        if header.edition == 3 || index % 6 == 0 {
            let (low, high) = match about == BROKEN {
                true => (i64::MIN, i64::MAX),
                false => [(0, 140), (9, 0), (i64::MIN, i64::MAX)][index % 3],
            };
            let given = [
                ("column", given(&header)),
                ("bytes", bytes(&column)),
                ("from", number([1, 0, 2][index % 3])),
                ("low", number(low)),
                ("high", number(high)),
            ];
            vectors.add(&about, given);
        }
    }
}
