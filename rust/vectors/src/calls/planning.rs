//! write_planned, plan.

use super::Vectors;
use crate::given::{cycle, drawn, number, steps, Numbers};
use crate::samples::MAX_ID;

/// Values, and tables that are accepted for them or not.
fn plans() -> Vec<(&'static str, Numbers)> {
    let far = 1_i128 << 40;
    let (least, most) = (i128::from(i64::MIN), i128::from(i64::MAX));
    let mut lists = vec![
        ("no values", Numbers::plain([0_i64; 0])),
        ("one value", Numbers::plain([5])),
        ("the page's five", Numbers::plain([5, 6, 5, 6, 3000])),
        ("the page's four", Numbers::plain([1, least, 0, 1])),
        ("least and most", Numbers::plain([least, most])),
        ("2^60 and 2^61", Numbers::plain([1_i128 << 60, 1 << 61])),
        (
            "far apart",
            Numbers::of(vec![cycle(&[-far, 0, far, 7], 90)]),
        ),
        ("equal values", Numbers::of(vec![cycle(&[9], 100)])),
    ];
    // A byte shorter by a table, but for 889 to 1016 pairs: there V itself takes a byte more.
    for count in [2, 888, 889, 1016, 1017] {
        let two = [least, least + (1 << 60)];
        lists.push((
            "V's own bytes count too",
            Numbers::of(vec![cycle(&two, count)]),
        ));
    }
    for count in 17..24 {
        lists.push((
            "where a table begins to pay",
            Numbers::of(vec![cycle(&[0, 1, 3000], count)]),
        ));
    }
    for entries in [2, 3, 255, 256, 257] {
        let distinct: Vec<i128> = (0..entries).map(|i| i * i * far).collect();
        lists.push((
            "so many distinct ones",
            Numbers::of(vec![cycle(&distinct, 3000)]),
        ));
    }
    for seed in 40..56 {
        let pieces = drawn(
            seed,
            (2, i128::from(seed) - 38),
            1 << (seed - 20),
            -far,
            12 * (seed as usize - 38),
        );
        lists.push(("drawn", Numbers::of(vec![pieces])));
    }
    lists
}

fn distinct(values: &Numbers) -> Vec<i128> {
    let mut table = values.numbers.clone();
    table.sort_unstable();
    table.dedup();
    table
}

pub fn plan(vectors: &mut Vectors) {
    for (about, values) in plans() {
        for room in [256, 300] {
            let room = number(room);
            vectors.add(about, [("values", values.given.clone()), ("room", room)]);
        }
    }
    for room in [0, 1, 2, 255] {
        for values in [
            Numbers::plain([0_i64; 0]),
            Numbers::plain([i64::MIN, i64::MAX]),
        ] {
            let room = number(room);
            vectors.add(
                "a list too short",
                [("values", values.given), ("room", room)],
            );
        }
    }
}

/// A list of pairs to be written by plans.
struct Planned<'a> {
    vectors: &'a mut Vectors,
    ids: Numbers,
    values: Numbers,
}

impl Planned<'_> {
    fn add(&mut self, about: &str, table: &[i128], power: u32, room: usize) {
        let given = [
            ("ids", self.ids.given.clone()),
            ("values", self.values.given.clone()),
            ("table", Numbers::plain(table.iter().copied()).given),
            ("power", number(power)),
            ("room", number(room as i128)),
        ];
        self.vectors.add(about, given);
    }
}

pub fn write_planned(vectors: &mut Vectors) {
    for (about, values) in plans() {
        let ids = Numbers::of(vec![steps(2, 3, values.numbers.len())]);
        let table = distinct(&values);
        let mut list = Planned {
            vectors,
            ids,
            values,
        };
        list.add(&format!("{about}, plain"), &[], 9, 30_000);
        if table.len() > 300 {
            continue;
        }
        let (mut unused, mut twice, mut falling) = (table.clone(), table.clone(), table.clone());
        unused.push(table.last().map_or(0, |last| last.saturating_sub(1)));
        unused.sort_unstable();
        twice.extend_from_within(..table.len().min(1));
        twice.sort_unstable();
        falling.reverse();
        list.add(&format!("{about}, by its table"), &table, 9, 30_000);
        list.add(&format!("{about}, an entry more"), &unused, 9, 30_000);
        list.add(&format!("{about}, descending"), &falling, 0, 30_000);
        let less = table.get(1..).unwrap_or(&[]);
        list.add(&format!("{about}, an entry less"), less, 7, 30_000);
        list.add(&format!("{about}, an entry twice"), &twice, 9, 30_000);
    }
    refused_in_order(vectors);
}

/// Two things wrong at once, and the room.
fn refused_in_order(vectors: &mut Vectors) {
    let mut list = Planned {
        vectors,
        ids: Numbers::plain([0, 2, 7, 9]),
        values: Numbers::plain([1, i64::MIN, 0, 1]),
    };
    for room in [0, 51, 52, 53] {
        list.add("room for a table", &[i128::from(i64::MIN), 0, 1], 9, room);
    }
    for room in [67, 68] {
        list.add("room for plain", &[], 9, room);
    }
    for (about, ids, power) in [
        ("LENGTHS first", &[3, 2, 1][..], 6),
        ("POWER before ORDER", &[3, 2, 1, 0], 6),
        ("ORDER before PLAN", &[3, 2, 1, 0], 9),
        ("RANGE before PLAN", &[0, 1, 2, MAX_ID + 1], 9),
        ("PLAN before ROOM", &[0, 2, 7, 9], 9),
    ] {
        list.ids = Numbers::plain(ids.iter().copied());
        list.add(about, &[7], power, 0);
    }
}
