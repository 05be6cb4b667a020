//! write.

use super::Vectors;
use crate::given::{cycle, number, Numbers};
use crate::samples::{self, Sample, EDITIONS, MAX_ID, POWERS};
use crate::Json;

fn given(
    ids: &Numbers,
    values: &Numbers,
    edition: u32,
    power: u32,
    room: usize,
) -> [(&'static str, Json); 5] {
    [
        ("ids", ids.given.clone()),
        ("values", values.given.clone()),
        ("edition", number(edition)),
        ("power", number(power)),
        ("room", number(room as i128)),
    ]
}

fn of(sample: &Sample, room: usize) -> [(&'static str, Json); 5] {
    let Sample { ids, values, .. } = sample;
    given(ids, values, sample.edition, sample.power, room)
}

pub fn write(vectors: &mut Vectors) {
    for sample in samples::small() {
        let len = sample.bytes.len();
        for (room, about) in [
            (len, ""),
            (len + 3, ", room left"),
            (len - 1, ", a byte short"),
        ] {
            vectors.add(&format!("{}{about}", sample.about), of(&sample, room));
        }
    }
    let long = [
        samples::widths(),
        samples::tables(),
        samples::dense(),
        samples::runs(),
    ];
    for sample in long.into_iter().flatten() {
        vectors.add(&sample.about, of(&sample, sample.bytes.len()));
    }
    for (about, ids, values) in samples::drawn_lists() {
        for edition in EDITIONS {
            let sample = samples::sample(&about, &ids, &values, edition, 9);
            vectors.add(&sample.about, of(&sample, sample.bytes.len()));
        }
    }
    dense_at_each_power(vectors);
    refused(vectors);
    refused_in_order(vectors);
}

/// Ids as each kind of block has them, at each power.
fn dense_at_each_power(vectors: &mut Vectors) {
    for power in POWERS {
        for (count, ids) in samples::counts(2) {
            // Sparse and full blocks have no ranks.
            if power != 9 && !matches!(count, 4096 | 30_000..=35_000 | 65_535) {
                continue;
            }
            let values = Numbers::of(vec![cycle(&[1], count)]);
            let sample = samples::sample(&format!("block 2 of {count}"), &ids, &values, 1, power);
            vectors.add(&sample.about, of(&sample, sample.bytes.len()));
        }
    }
    let far = Numbers::plain([0, MAX_ID - 1, MAX_ID]);
    for edition in EDITIONS {
        let sample = samples::sample(
            "up to the last id",
            &far,
            &Numbers::plain([1, 2, 4]),
            edition,
            9,
        );
        vectors.add(&sample.about, of(&sample, sample.bytes.len()));
    }
}

fn refused(vectors: &mut Vectors) {
    let (ids, values) = (Numbers::plain([0, 2, 7]), Numbers::plain([150, 140, 135]));
    for edition in [0, 5, 6, 255, 257, u32::MAX] {
        vectors.add("no such edition", given(&ids, &values, edition, 9, 99));
    }
    for power in [1, 2, 3, 4, 5, 6, 16, 17, 63, 64, 255, 265, u32::MAX] {
        for edition in EDITIONS {
            vectors.add("no such power", given(&ids, &values, edition, power, 99));
        }
    }
    for wrong in [
        &[4, 4][..],
        &[5, 4],
        &[0, 1, 2, 2, 1],
        &[0, 9, 3, 4, 2],
        &[MAX_ID, 0],
        &[7, 7, MAX_ID + 1],
    ] {
        let values = Numbers::plain((0..wrong.len()).map(|it| it as i64));
        let wrong = Numbers::plain(wrong.iter().copied());
        vectors.add("ids out of order", given(&wrong, &values, 1, 9, 99));
        vectors.add("ids out of order", given(&wrong, &values, 4, 0, 0));
    }
    for wrong in [
        &[MAX_ID + 1][..],
        &[0, MAX_ID + 1, u32::MAX],
        &[1, 2, u32::MAX],
    ] {
        let values = Numbers::plain((0..wrong.len()).map(|it| it as i64));
        let wrong = Numbers::plain(wrong.iter().copied());
        vectors.add("an id above the limit", given(&wrong, &values, 1, 9, 99));
        vectors.add("an id above the limit", given(&wrong, &values, 3, 7, 0));
    }
    for (count, values) in [(0, 1), (1, 0), (3, 2), (2, 3)] {
        let ids = Numbers::plain((0..count).map(|it: i64| it));
        let values = Numbers::plain((0..values).map(|it: i64| it));
        vectors.add("not as many values as ids", given(&ids, &values, 1, 9, 99));
    }
}

/// Two things wrong at once: 1, 9, 2, 3, 4, 6, each over the whole input before the next.
fn refused_in_order(vectors: &mut Vectors) {
    let two = Numbers::plain([1, 2]);
    let (unlike, unsorted) = (
        Numbers::plain([9, 4, 4]),
        Numbers::plain([4, MAX_ID + 1, 4]),
    );
    let (three, late) = (
        Numbers::plain([1, 2, 3]),
        Numbers::plain([MAX_ID + 1, MAX_ID + 2, 3]),
    );
    for (about, ids, values, edition, power) in [
        ("LENGTHS before EDITION", &unlike, &two, 5, 9),
        ("LENGTHS before POWER", &unlike, &two, 1, 6),
        ("LENGTHS before ORDER", &unlike, &two, 1, 9),
        ("EDITION before POWER", &unlike, &three, 5, 6),
        ("EDITION before ORDER", &unlike, &three, 0, 9),
        ("POWER before ORDER", &unlike, &three, 1, 16),
        ("POWER before RANGE", &late, &three, 2, 16),
        (
            "ORDER before RANGE, which comes sooner",
            &unsorted,
            &three,
            1,
            9,
        ),
        ("ORDER before RANGE", &late, &three, 4, 9),
        (
            "RANGE before ROOM",
            &Numbers::plain([1, 2, MAX_ID + 1]),
            &three,
            3,
            9,
        ),
        ("ROOM", &three, &three, 1, 9),
    ] {
        vectors.add(about, given(ids, values, edition, power, 0));
    }
}
