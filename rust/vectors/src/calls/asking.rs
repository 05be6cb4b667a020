//! look_up, look_up_page.

use super::reading::{broken_headers, changed_bytes, damaged_long};
use super::stepping::for_the_steps;
use super::{id, Vectors};
use crate::damage::Random;
use crate::given::{bytes, number, Numbers};
use crate::samples::{self, Sample, MAX_ID};

/// Ids to ask a column for: listed ones, their neighbours, and those at the ends of blocks.
pub fn asked(sample: &Sample, random: &mut Random, listed: usize) -> Vec<u32> {
    let ids = sample.ids.ids();
    let mut asked = vec![0, MAX_ID];
    for index in 0..listed.min(ids.len()) {
        let index = if ids.len() <= listed {
            index
        } else {
            random.below(ids.len())
        };
        let id = ids[index];
        asked.extend([id, id.saturating_add(1).min(MAX_ID)]);
        if index % 3 == 0 {
            asked.extend([id.saturating_sub(1), id | 0xFFFF, id & !0xFFFF]);
        }
    }
    asked.sort_unstable();
    asked.dedup();
    asked
}

pub fn look_up(vectors: &mut Vectors) {
    let mut random = Random(3);
    let mut add = |about: &str, column: &[u8], asked: u32| {
        vectors.add(about, [("bytes", bytes(column)), ("id", id(asked))]);
    };
    for sample in samples::small() {
        for asked in asked(&sample, &mut random, 4)
            .into_iter()
            .step_by(2)
            .take(4)
        {
            add(&sample.about, &sample.bytes, asked);
        }
    }
    for sample in samples::widths() {
        for &asked in &sample.ids.ids()[..2] {
            add(&sample.about, &sample.bytes, asked);
        }
    }
    for sample in [samples::dense(), samples::runs(), samples::tables()].concat() {
        for asked in asked(&sample, &mut random, 2).into_iter().step_by(2) {
            add(&sample.about, &sample.bytes, asked);
        }
    }
    let every = samples::every_id();
    for asked in [
        0,
        65_535,
        65_536,
        1_000_000_007,
        MAX_ID,
        MAX_ID + 1,
        u32::MAX,
    ] {
        add("all ids", &every, asked);
    }
    add("ID before SHORT", &[], MAX_ID + 1);
    for (about, damaged, ids) in for_the_steps() {
        for asked in ids {
            add(&about, &damaged, asked);
        }
    }
    for (about, broken) in broken_headers().iter().step_by(5) {
        add(about, broken, 2);
    }
    for (about, damaged) in changed_bytes().iter().step_by(3) {
        let asked = random.of(&[
            0, 1, 2, 3, 4, 7, 9, 65_536, 65_541, 131_072, 262_144, MAX_ID,
        ]);
        add(about, damaged, asked);
    }
    for (about, damaged) in damaged_long().iter().step_by(3) {
        let asked = random.of(&[0, 5, 15, 16_384, 16_399, 65_535, 65_536, 70_001, 131_071]);
        add(about, damaged, asked);
    }
}

pub fn look_up_page(vectors: &mut Vectors) {
    let mut random = Random(5);
    let mut add = |about: &str, column: &[u8], ids: &[u32], room: [usize; 3]| {
        let given = [
            ("bytes", bytes(column)),
            ("ids", Numbers::plain(ids.iter().copied()).given),
            ("ordinals_room", number(room[0] as i128)),
            ("values_room", number(room[1] as i128)),
            ("kinds_room", number(room[2] as i128)),
        ];
        vectors.add(about, given);
    };
    let mut page = |sample: &Sample| {
        let mut ids = asked(sample, &mut random, 6);
        ids.truncate(14);
        ids.reverse();
        ids.extend([ids[0], MAX_ID + 1, u32::MAX]);
        ids
    };
    let sound = [
        samples::small(),
        samples::dense(),
        samples::runs(),
        samples::tables(),
    ];
    for sample in sound.iter().flatten() {
        let ids = page(sample);
        add(&sample.about, &sample.bytes, &ids, [ids.len(); 3]);
    }
    for (about, broken) in broken_headers().iter().step_by(17) {
        add(about, broken, &[7, 0, MAX_ID + 1, 2], [4, 5, 6]);
    }
    for (about, damaged, ids) in for_the_steps().iter().step_by(6) {
        add(
            about,
            damaged,
            &[&ids[..], &ids[..1], &[MAX_ID + 1]].concat(),
            [ids.len() + 3; 3],
        );
    }
    let first = &samples::small()[4].bytes;
    for room in [[2, 3, 3], [3, 2, 3], [3, 3, 2], [0, 0, 0], [3, 3, 0]] {
        add("a list too short", first, &[7, 5, 7], room);
        add("BUFFER before SHORT", &[], &[7, 5, 7], room);
    }
    add("no ids", first, &[], [0, 1, 2]);
    add("no ids, no bytes", &[], &[], [0, 0, 0]);
}
