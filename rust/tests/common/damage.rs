//! Columns to damage, and every call on what becomes of them.

use signalfern::{Edition, Refusal, MAX_ID};

use super::{
    few_ids, ids_of, layers, pages, same, values_of_width, Random, EDITIONS, POWERS, SCALED,
};

/// How often each refusal came; 0 is for accepted bytes.
#[derive(Default)]
pub struct Tally(pub [usize; 18]);

impl Tally {
    /// Tries every call on the bytes.
    pub fn try_all(&mut self, bytes: &[u8], asked: &[u32]) {
        let checked = same::check(bytes);
        self.count(checked.err());
        let places = checked.map_or(8, |count| count as usize);
        if places <= 200_000 {
            let read = same::read(bytes, places, places + 1);
            self.count(read.as_ref().err().copied());
            if let Ok((ids, values)) = read {
                // Accepted bytes are the column of what is read.
                let column = same::open(bytes).unwrap();
                let (edition, power) = (column.edition(), column.power() as u32);
                let again = signalfern::write_to_vec(&ids, &values, edition, power);
                assert!(again.unwrap() == bytes);
            }
            assert_eq!(same::walk(bytes).err(), checked.err());
        }
        let opened = same::open(bytes);
        for &id in asked {
            let answer = same::look_up(bytes, id);
            self.count(answer.err());
            if let Ok(column) = opened {
                assert_eq!(same::look_up_in(column.header(), bytes, id), answer);
            }
        }
        pages::look_up_exactly(bytes, asked);
        for &id in asked.iter().take(3) {
            self.count(same::read_from(bytes, id, (2, 3)).err());
            self.count(same::pair_at(bytes, id.into()).err());
        }
        for (low, high) in RANGES {
            let found = same::first_between(bytes, low, high);
            self.count(found.err());
            if let Ok(column) = opened {
                assert_eq!(
                    same::first_between_in(column.header(), bytes, low, high),
                    found
                );
            }
        }
    }

    pub fn count(&mut self, refusal: Option<Refusal>) {
        self.0[refusal.map_or(0, |refusal| refusal.number() as usize)] += 1;
    }

    #[track_caller]
    pub fn has(&self, numbers: &[usize]) {
        for &number in numbers {
            assert!(self.0[number] > 0, "no {number} among {:?}", self.0);
        }
    }
}

/// A header that every call refuses, but for the search for a value, which is for edition 3 alone.
#[track_caller]
pub fn refused_everywhere(bytes: &[u8], refusal: Refusal) {
    assert_eq!(same::open(bytes).unwrap_err(), refusal);
    assert_eq!(same::check(bytes), Err(refusal));
    assert_eq!(same::read(bytes, 9, 9), Err(refusal));
    assert_eq!(same::look_up(bytes, 0), Err(refusal));
    assert_eq!(same::next(bytes, 7), Err(refusal));
    assert_eq!(same::read_from(bytes, 7, (1, 1)), Err(refusal));
    assert_eq!(same::pair_at(bytes, u64::MAX), Err(refusal));
    let searched = same::first_between(bytes, 0, 9);
    let in_runs = bytes.first() == Some(&3);
    assert_eq!(
        searched,
        Err(if in_runs { refusal } else { Refusal::Edition })
    );
    assert_eq!(layers::look_up(bytes, bytes, 0).unwrap_err().1, refusal);
}

/// Ranges to search for: all values, some of the small columns', and none.
const RANGES: [(i64, i64); 5] = [
    (i64::MIN, i64::MAX),
    (136, 149),
    (-1, -1),
    (1 << 30, i64::MAX),
    (150, 135),
];

/// Columns of each edition.
pub fn small_columns(random: &mut Random) -> Vec<Vec<u8>> {
    let mut columns = Vec::new();
    let mut add = |ids: &[u32], values: &[i64], edition, power| {
        columns.push(signalfern::write_to_vec(ids, values, edition, power).unwrap());
    };
    for edition in EDITIONS {
        add(&[], &[], edition, 9);
        add(&[0, 2, 7], &[150, 140, 135], edition, 9);
        add(&[65_536], &[-1], edition, 0);
        add(&[1, 2], &[i64::MIN, i64::MAX], edition, 7);
        add(&[0, 2, 7, 9], &[1, i64::MIN, 0, 1], edition, 9);
    }
    for round in 0..16 {
        let ids = few_ids(random, 8);
        let width = random.below(65) as u32;
        let values = values_of_width(random, ids.len(), width);
        add(&ids, &values, EDITIONS[round % 4], random.pick(&POWERS));
    }
    columns.retain(|column| column.len() < 400);
    columns
}

/// Ids to ask for: near the listed ones, and the limits.
pub fn asked(column: &[u8]) -> Vec<u32> {
    let (ids, _) = signalfern::read_to_vecs(column).unwrap();
    let mut asked = vec![0, 65_536, MAX_ID, MAX_ID + 1, u32::MAX];
    let step = ids.len().div_ceil(12).max(1);
    for &id in ids.iter().step_by(step) {
        asked.extend([id, id + 1, id.saturating_sub(1)]);
    }
    asked
}

pub fn large_columns(random: &mut Random) -> Vec<Vec<u8>> {
    let lists: [&[(u32, usize)]; 6] = [
        &[(0, 4096)],
        &[(0, 65_536), (1, 4000)],
        &[(3, 4095), (5, 5000)],
        &[(0, 60_000), (1, 65_535)],
        &[(2, 65_536), (3, 65_536), (4, 10)],
        &[(0, 100), (7, 4500), (8, 3)],
    ];
    let mut columns = Vec::new();
    for blocks in lists {
        let ids = ids_of(random, blocks);
        let values = values_of_width(random, ids.len(), 3);
        // Three bits in editions 1 and 3, four in edition 2.
        let powers = [0, random.pick(&POWERS[1..]), random.pick(&POWERS)];
        for (edition, power) in SCALED.into_iter().zip(powers) {
            columns.push(signalfern::write_to_vec(&ids, &values, edition, power).unwrap());
        }
        // Codes of two bits.
        let table = [i64::MIN, 0, 1];
        let few: Vec<i64> = values
            .iter()
            .map(|value| table[*value as usize % 3])
            .collect();
        let power = random.pick(&POWERS);
        columns.push(signalfern::write_to_vec(&ids, &few, Edition::Table, power).unwrap());
    }
    columns
}
