//! The next candidate (document 02, [1]) on columns: for any sequence of targets from any cursor the
//! answers are the pair list's.

use crate::common::{
    block_ids, few_ids, ids_of, same, values_of_width, Random, BLOCK_COUNTS, EDITIONS, POWERS,
};
use signalfern::{Column, Cursor, Edition, Refusal, MAX_ID};
use signalfern_reference::{self as reference, Candidate};

type Next = Result<Option<Candidate>, Refusal>;

fn found(id: u32, ordinal: u64, value: i64) -> Next {
    Ok(Some(Candidate { id, ordinal, value }))
}

const NONE: Next = Ok(None);
const BACK: Next = Err(Refusal::Back);
const ID: Next = Err(Refusal::Id);

/// A list and its column.
struct Listed {
    ids: Vec<u32>,
    values: Vec<i64>,
    bytes: Vec<u8>,
}

impl Listed {
    fn new(ids: &[u32], values: &[i64], edition: Edition, power: u32) -> Self {
        Self {
            ids: ids.to_vec(),
            values: values.to_vec(),
            bytes: same::write_exactly(ids, values, edition, power),
        }
    }

    /// Asks for each target in turn, from this cursor: by the bytes, by the opened column and by its
    /// header's numbers, as the list has it.
    #[track_caller]
    fn ask(&self, last: u32, targets: impl IntoIterator<Item = u32>) {
        let header = same::open(&self.bytes).unwrap().header();
        let (mut cursor, mut plain) = (Cursor::at(last), last);
        for target in targets {
            let mut before = cursor;
            let answer = same::next_from(&mut cursor, &self.bytes, target);
            let listed = reference::next_listed(&mut plain, &self.ids, &self.values, target);
            let listed = listed.map_err(|it| Refusal::from_number(it.number, it.with).unwrap());
            assert_eq!(answer, listed, "{target} after {before:?}");
            assert_eq!(cursor.last(), plain);
            assert_eq!(
                same::next_in(header, &mut before, &self.bytes, target),
                answer
            );
            assert_eq!(before, cursor);
        }
    }
}

/// The answers to targets in turn from a new cursor, worked out by hand.
#[track_caller]
fn answers(ids: &[u32], values: &[i64], turns: &[(u32, Next)]) {
    for edition in EDITIONS {
        let listed = Listed::new(ids, values, edition, 9);
        let mut cursor = Cursor::new();
        for &(target, answer) in turns {
            let given = same::next_from(&mut cursor, &listed.bytes, target);
            assert_eq!(given, answer, "{target}");
        }
        listed.ask(0, turns.iter().map(|turn| turn.0));
    }
}

#[test]
fn no_pairs() {
    let turns = [
        (0, NONE),
        (0, NONE),
        (65_536, NONE),
        (65_535, BACK),
        (MAX_ID, NONE),
    ];
    answers(&[], &[], &turns);
}

#[test]
fn at_between_below_and_above() {
    let turns = [
        (0, found(5, 0, 150)),
        (5, found(5, 0, 150)),
        // A target that repeats.
        (5, found(5, 0, 150)),
        (6, found(9, 1, 140)),
        (9, found(9, 1, 140)),
        (8, BACK),
        (10, found(200_000, 2, -7)),
        (65_536, found(200_000, 2, -7)),
        (MAX_ID + 1, ID),
        (65_535, BACK),
        (200_000, found(200_000, 2, -7)),
        (200_001, NONE),
        // Going back after "none", which counts as an answer.
        (200_000, BACK),
        (200_001, NONE),
        (MAX_ID, NONE),
        (u32::MAX, ID),
        (MAX_ID, NONE),
        (0, BACK),
    ];
    answers(&[5, 9, 200_000], &[150, 140, -7], &turns);
}

#[test]
fn the_last_id_that_there_can_be() {
    let turns = [
        (0, found(MAX_ID, 0, 8)),
        (MAX_ID - 1, found(MAX_ID, 0, 8)),
        (MAX_ID, found(MAX_ID, 0, 8)),
        (MAX_ID, found(MAX_ID, 0, 8)),
        (MAX_ID + 1, ID),
        (MAX_ID - 1, BACK),
    ];
    answers(&[MAX_ID], &[8], &turns);
}

#[test]
fn gaps_of_thousands_of_blocks() {
    // Blocks 2, 9000 and 32764.
    let ids = [131_072, 9000 << 16 | 65_535, 32_764 << 16];
    let turns = [
        (0, found(131_072, 0, 1)),
        (131_073, found(9000 << 16 | 65_535, 1, 2)),
        (5000 << 16 | 77, found(9000 << 16 | 65_535, 1, 2)),
        (9000 << 16, found(9000 << 16 | 65_535, 1, 2)),
        (9001 << 16, found(32_764 << 16, 2, 3)),
        (32_763 << 16 | 65_535, found(32_764 << 16, 2, 3)),
        ((32_764 << 16) + 1, NONE),
    ];
    answers(&ids, &[1, 2, 3], &turns);
}

/// Targets at the borders of words, strides and blocks, near these blocks.
fn borders(random: &mut Random, numbers: &[u32]) -> Vec<u32> {
    let mut targets = vec![0, 1, MAX_ID - 1, MAX_ID];
    for &number in numbers {
        let base = number << 16;
        let places = [0, 1, 62, 63, 64, 65, 65_471, 65_472, 65_473, 65_534, 65_535];
        targets.extend(places.map(|place| base | place));
        for power in POWERS {
            let border = base | ((random.below(65_536) as u32 >> power) << power);
            targets.extend([border, border | 63, border.saturating_sub(1)]);
        }
        targets.extend([base.saturating_sub(1), (base + 65_536).min(MAX_ID)]);
        targets.extend((0..10).map(|_| base | random.below(65_536) as u32));
    }
    targets.sort_unstable();
    targets
}

#[test]
fn every_block_kind_at_both_ends() {
    let mut random = Random::new(50);
    for (round, &first) in BLOCK_COUNTS.iter().enumerate() {
        for (turn, &last) in BLOCK_COUNTS.iter().enumerate() {
            let number = [0, 1, 3, 32_764][(round + turn) % 4];
            let blocks = [(number, first), (number + 1, last)];
            let ids = ids_of(&mut random, &blocks);
            let values = values_of_width(&mut random, ids.len(), 7);
            let (edition, power) = (EDITIONS[turn % 4], POWERS[(round + 3 * turn) % 10]);
            let listed = Listed::new(&ids, &values, edition, power);
            let mut targets = borders(&mut random, &[number, number + 1]);
            targets.extend([ids[0], ids[first - 1], ids[first], ids[ids.len() - 1]]);
            targets.sort_unstable();
            listed.ask(0, targets);
        }
    }
}

#[test]
fn every_block_kind_at_every_power() {
    let mut random = Random::new(51);
    for count in [1, 4095, 4096, 30_000, 65_535, 65_536] {
        for power in POWERS {
            let ids = block_ids(&mut random, 2, count);
            let values = values_of_width(&mut random, count, 11);
            let targets = borders(&mut random, &[1, 2, 3]);
            let edition = random.pick(&EDITIONS);
            Listed::new(&ids, &values, edition, power).ask(0, targets);
        }
    }
}

#[test]
fn any_sequence_from_any_cursor() {
    let mut random = Random::new(52);
    let cursors = [
        0,
        1,
        7,
        65_535,
        65_536,
        200_000,
        MAX_ID,
        MAX_ID + 1,
        u32::MAX,
    ];
    for _ in 0..250 {
        let ids = few_ids(&mut random, 40);
        let width = random.below(65) as u32;
        let values = values_of_width(&mut random, ids.len(), width);
        let edition = random.pick(&EDITIONS);
        let listed = Listed::new(&ids, &values, edition, random.pick(&POWERS));
        let span = ids.last().map_or(10, |last| last + 70_000) as usize;
        let mut target = 0;
        let targets: Vec<u32> = (0..12)
            .map(|_| {
                target = match random.below(8) {
                    0 | 1 => target,
                    2 => random.pick(&cursors),
                    3 => random.below(span) as u32,
                    _ => target.wrapping_add(random.below(span / 6 + 1) as u32),
                };
                target
            })
            .collect();
        for last in [0, random.pick(&cursors), random.below(span) as u32] {
            listed.ask(last, targets.iter().copied());
        }
    }
}

#[test]
fn a_walk_over_all_pairs() {
    let mut random = Random::new(53);
    let blocks = [(0, 300), (1, 5000), (4, 65_536), (5, 4095), (9, 60_000)];
    let ids = ids_of(&mut random, &blocks);
    let values = values_of_width(&mut random, ids.len(), 13);
    for edition in EDITIONS {
        let listed = Listed::new(&ids, &values, edition, 9);
        let column = Column::open(&listed.bytes).unwrap();
        for first in [0, 1, 65_536, 200_000, 330_000, ids[ids.len() - 1], MAX_ID] {
            let index = ids.partition_point(|&id| id < first);
            let walk = column.candidates_from(first).map(Result::unwrap);
            let walk = walk.map(|it| (it.ordinal, it.id, it.value));
            let list = (index..ids.len()).map(|i| (i as u64, ids[i], values[i]));
            assert!(walk.eq(list), "from {first}");
        }
    }
}

#[test]
fn a_walk_that_ended_stays_so() {
    let listed = Listed::new(&[2, MAX_ID], &[5, 6], Edition::Plain, 9);
    let column = Column::open(&listed.bytes).unwrap();
    let mut walk = column.candidates_from(3);
    assert_eq!(walk.next().unwrap().unwrap().id, MAX_ID);
    // No target lies above the greatest id.
    assert_eq!((walk.next(), walk.next()), (None, None));
    let mut walk = column.candidates_from(MAX_ID + 1);
    assert_eq!(walk.next(), Some(Err(Refusal::Id)));
    assert_eq!((walk.next(), walk.next()), (None, None));
    // The entry of block 1 leads past the section.
    let mut bytes = listed.bytes.clone();
    let entries = bytes.len() - 8 * 32_767 - 1;
    bytes[entries + 8 + 7] = 0x80;
    let column = Column::open(&bytes).unwrap();
    let mut walk = column.candidates_from(0);
    assert_eq!(walk.next().unwrap().unwrap().id, 2);
    assert_eq!(walk.next(), Some(Err(Refusal::Broken)));
    assert_eq!((walk.next(), walk.next()), (None, None));
}
