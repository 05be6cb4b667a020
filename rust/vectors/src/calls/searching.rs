//! next, first_between.

use super::asking::asked;
use super::reading::{broken_headers, changed_bytes, damaged_long};
use super::stepping::{for_the_steps, runs_for_the_steps};
use super::{id, Vectors};
use crate::damage::{put, Random};
use crate::given::{bytes, number};
use crate::samples::{self, Sample, MAX_ID};

pub fn next(vectors: &mut Vectors) {
    let mut random = Random(13);
    let mut add = |about: &str, column: &[u8], cursor: u32, target: u32| {
        let given = [
            ("bytes", bytes(column)),
            ("cursor", id(cursor)),
            ("target", id(target)),
        ];
        vectors.add(about, given);
    };
    let sound = [samples::small(), samples::dense(), samples::runs()];
    for sample in sound.iter().flatten() {
        for target in asked(sample, &mut random, 3).into_iter().step_by(2).take(3) {
            add(&sample.about, &sample.bytes, target / 2, target);
        }
    }
    let first = &samples::small()[4].bytes;
    for (cursor, target) in [
        (3, 3),
        (3, 2),
        (8, 8),
        (8, 7),
        (MAX_ID, MAX_ID),
        (u32::MAX, 9),
        (u32::MAX, u32::MAX),
    ] {
        add("the first column, from a cursor", first, cursor, target);
    }
    add("ID before BACK", first, u32::MAX, MAX_ID + 1);
    add("ID before SHORT", &[], 0, MAX_ID + 1);
    add("BACK before SHORT", &[], 5, 4);
    let every = samples::every_id();
    for target in [0, 65_535, 1_000_000_007, MAX_ID] {
        add("all ids", &every, 0, target);
    }
    for (about, broken) in broken_headers().iter().step_by(11) {
        add(about, broken, 1, 2);
    }
    for (about, damaged, ids) in for_the_steps() {
        for &target in ids.iter().step_by(3) {
            add(&about, &damaged, 0, target);
        }
    }
    scanned_and_not_halved(&mut add);
    for (about, damaged) in changed_bytes().iter().step_by(6) {
        let target = random.of(&[0, 1, 2, 3, 4, 7, 9, 65_536, 65_541, 131_072, 262_144]);
        add(about, damaged, 0, target);
    }
    for (about, damaged) in damaged_long().iter().step_by(4) {
        let target = random.of(&[0, 5, 15, 16_384, 16_399, 65_535, 65_536, 70_001, 131_071]);
        add(about, damaged, target / 3, target);
    }
}

/// Sparse blocks whose entries do not ascend: the first in their order that is at least r decides.
fn scanned_and_not_halved(add: &mut impl FnMut(&str, &[u8], u32, u32)) {
    let first = &samples::small()[4].bytes;
    for entries in [[9_u8, 2, 7], [7, 2, 0], [2, 9, 7], [5, 5, 1]] {
        let [a, b, c] = entries;
        let damaged = put(first, 14, &[a, 0, b, 0, c, 0]);
        for target in [0, 1, 2, 3, 6, 8, 9, 10] {
            add(&format!("entries {a}, {b}, {c}"), &damaged, 0, target);
        }
    }
}

/// Ranges around the values of a column.
pub fn ranges(sample: &Sample, random: &mut Random) -> Vec<(i64, i64)> {
    let values = sample.values.values();
    let mut ranges = vec![(i64::MIN, i64::MAX), (1, 0), (i64::MAX, i64::MIN)];
    let (Some(&least), Some(&most)) = (values.iter().min(), values.iter().max()) else {
        return ranges;
    };
    ranges.extend([
        (least, least),
        (most, most),
        (most, i64::MAX),
        (i64::MIN, least),
        (most.saturating_add(1), i64::MAX),
        (i64::MIN, least.saturating_sub(1)),
    ]);
    for _ in 0..2 {
        let value = values[random.below(values.len())];
        ranges.push((value, value));
        ranges.push((value.saturating_add(1), value.saturating_add(3)));
    }
    ranges
}

pub fn first_between(vectors: &mut Vectors) {
    let mut random = Random(17);
    let mut add = |about: &str, column: &[u8], (low, high): (i64, i64)| {
        let given = [
            ("bytes", bytes(column)),
            ("low", number(low)),
            ("high", number(high)),
        ];
        vectors.add(about, given);
    };
    let small = samples::small();
    let of_runs = small.iter().filter(|it| it.edition == 3);
    let wide = samples::widths();
    let wide = wide.iter().filter(|it| it.edition == 3).step_by(16);
    for sample in of_runs.chain(wide).chain(&samples::runs()) {
        for range in ranges(sample, &mut random) {
            add(&sample.about, &sample.bytes, range);
        }
    }
    for sample in small.iter().filter(|it| it.edition != 3).take(9) {
        add(
            &format!("{}: another edition", sample.about),
            &sample.bytes,
            (0, 9),
        );
        add(
            &format!("{}: another edition", sample.about),
            &sample.bytes,
            (9, 0),
        );
    }
    add("EDITION before a bad number", &[2, 0x80, 0], (0, 9));
    add("edition 3, then a bad number", &[3, 0x80, 0], (0, 9));
    for (about, broken) in broken_headers().iter().step_by(16) {
        add(about, broken, (0, 9));
    }
    for (about, damaged, _) in runs_for_the_steps() {
        for range in [(i64::MIN, i64::MAX), (1, 6), (700, 9000), (i64::MIN, -1)] {
            add(&about, &damaged, range);
        }
    }
    let third = &small[6].bytes;
    for (at, byte) in [
        (33, 4),
        (33, 6),
        (25, 0),
        (41, 1),
        (49, 65),
        (49, 0),
        (49, 64),
    ] {
        let damaged = put(third, at, &[byte]);
        for range in [
            (5, 9),
            (-2, -2),
            (-9, 0),
            (135, 140),
            (150, 160),
            (i64::MIN, i64::MAX),
        ] {
            add(&format!("byte {at} is {byte}"), &damaged, range);
        }
    }
}
