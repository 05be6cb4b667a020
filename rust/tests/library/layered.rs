//! A correction on top of a machine column (document 02, [10]): as the two lists have it, and on bytes
//! that are no columns.

use crate::common::damage::{asked, large_columns, small_columns, Tally};
use crate::common::layers::{look_up, Look};
use crate::common::listed::listed;
use crate::common::{
    few_ids, ids_of, same, values_of_width, Random, EDITIONS, POWERS, THREE_PAIRS,
};
use signalfern::{Column, Edition, Refusal, MAX_ID};
use signalfern_reference::{Answer, Layer, LayeredAnswer};

fn found(layer: Layer, ordinal: u64, value: i64, words: (u64, u64)) -> Look {
    Ok(LayeredAnswer::Found {
        layer,
        ordinal,
        value,
        machine_words: words.0,
        correction_words: words.1,
    })
}

fn absent(machine_words: u64, correction_words: u64) -> Look {
    Ok(LayeredAnswer::Absent {
        machine_words,
        correction_words,
    })
}

const NO_WORDS: (u64, u64) = (0, 0);

/// A list and its column.
struct Listed {
    ids: Vec<u32>,
    values: Vec<i64>,
    power: u32,
    bytes: Vec<u8>,
}

impl Listed {
    fn new(ids: Vec<u32>, values: Vec<i64>, edition: Edition, power: u32) -> Self {
        let bytes = same::write_exactly(&ids, &values, edition, power);
        Self {
            ids,
            values,
            power,
            bytes,
        }
    }

    fn answer(&self, id: u32) -> Answer {
        listed(&self.ids, &self.values, self.power, id)
    }

    /// The value section: what stands after the header and the id section.
    fn section(&self) -> &[u8] {
        let column = Column::open(&self.bytes).unwrap();
        &self.bytes[(column.start() + column.id_bytes()) as usize..]
    }
}

/// What the two lists say: the correction's pair wins, each column's words go by its own list.
fn lists_answer(machine: &Listed, correction: &Listed, id: u32) -> Look {
    let correction_words = match correction.answer(id) {
        Answer::Absent { words, .. } => words,
        Answer::Found {
            ordinal,
            value,
            words,
            ..
        } => return found(Layer::Correction, ordinal, value, (0, words)),
    };
    match machine.answer(id) {
        Answer::Absent { words, .. } => absent(words, correction_words),
        Answer::Found {
            ordinal,
            value,
            words,
            ..
        } => found(Layer::Machine, ordinal, value, (words, correction_words)),
    }
}

#[track_caller]
fn ask(machine: &Listed, correction: &Listed, ids: impl IntoIterator<Item = u32>) {
    for id in ids {
        let answer = look_up(&machine.bytes, &correction.bytes, id);
        assert_eq!(answer, lists_answer(machine, correction, id), "id {id}");
        let section = match answer {
            Ok(LayeredAnswer::Found {
                layer: Layer::Machine,
                ..
            }) => machine.section(),
            Ok(LayeredAnswer::Found {
                layer: Layer::Correction,
                ..
            }) => correction.section(),
            _ => &machine.bytes[..0],
        };
        let part = signalfern::layered_values(&machine.bytes, &correction.bytes, id);
        assert!(std::ptr::eq(part, section), "id {id}");
    }
}

#[test]
fn in_both_in_one_and_in_neither() {
    let machine = Listed::new(vec![0, 2, 7], vec![150, 140, 135], Edition::Lucene, 9);
    let correction = Listed::new(vec![2, 4, 70_000], vec![-1, 255, 3], Edition::Plain, 0);
    for (id, answer) in [
        (0, found(Layer::Machine, 0, 150, NO_WORDS)),
        (2, found(Layer::Correction, 0, -1, NO_WORDS)),
        (4, found(Layer::Correction, 1, 255, NO_WORDS)),
        (7, found(Layer::Machine, 2, 135, NO_WORDS)),
        (70_000, found(Layer::Correction, 2, 3, NO_WORDS)),
        (5, absent(0, 0)),
        (MAX_ID, absent(0, 0)),
        // The correction is asked first.
        (MAX_ID + 1, Err((Layer::Correction, Refusal::Id))),
        (u32::MAX, Err((Layer::Correction, Refusal::Id))),
    ] {
        assert_eq!(
            look_up(&machine.bytes, &correction.bytes, id),
            answer,
            "{id}"
        );
    }
    ask(&machine, &correction, 0..10);
    ask(&correction, &machine, (0..10).chain([70_000]));
}

#[test]
fn a_column_without_pairs() {
    let machine = Listed::new(vec![0, 2, 7], vec![150, 140, 135], Edition::Plain, 9);
    let empty = Listed::new(vec![], vec![], Edition::Lucene, 9);
    // All values equal: a value section of no bytes, at the end of its column.
    let equal = Listed::new(vec![2, 3], vec![5, 5], Edition::Lucene, 9);
    for (below, above) in [
        (&machine, &empty),
        (&empty, &machine),
        (&empty, &empty),
        (&machine, &equal),
    ] {
        ask(below, above, (0..9).chain([65_536, MAX_ID]));
    }
}

#[test]
fn the_same_bytes_twice() {
    let mut random = Random::new(60);
    let ids = ids_of(&mut random, &[(0, 5000), (2, 30)]);
    let values = values_of_width(&mut random, ids.len(), 6);
    for edition in EDITIONS {
        let both = Listed::new(ids.clone(), values.clone(), edition, 9);
        let asked = (0..300_000).step_by(997).chain(both.ids[..60].to_vec());
        ask(&both, &both, asked);
    }
}

#[test]
fn each_with_its_own_rank_power() {
    let mut random = Random::new(61);
    for (round, power) in POWERS.into_iter().enumerate() {
        for other in [power, POWERS[(round + 3) % 10], 0] {
            let blocks = [(0, 20_000), (1, 4096), (3, 65_536)];
            let ids = ids_of(&mut random, &blocks);
            let values = values_of_width(&mut random, ids.len(), 9);
            let machine = Listed::new(ids, values, random.pick(&EDITIONS), power);
            let ids = ids_of(&mut random, &[(0, 9000), (1, 70), (2, 50_000)]);
            let values = values_of_width(&mut random, ids.len(), 3);
            let correction = Listed::new(ids, values, random.pick(&EDITIONS), other);
            let asked: Vec<u32> = (0..150).map(|_| random.below(5 << 16) as u32).collect();
            ask(&machine, &correction, asked);
        }
    }
}

#[test]
fn many_short_lists() {
    let mut random = Random::new(62);
    for _ in 0..400 {
        let [machine, correction] = [(); 2].map(|()| {
            let ids = few_ids(&mut random, 30);
            let width = random.below(65) as u32;
            let values = values_of_width(&mut random, ids.len(), width);
            let edition = random.pick(&EDITIONS);
            Listed::new(ids, values, edition, random.pick(&POWERS))
        });
        let listed = machine.ids.iter().chain(&correction.ids).copied();
        let asked: Vec<u32> = listed.flat_map(|id| [id, id + 1, id ^ 65_536]).collect();
        ask(&machine, &correction, asked);
    }
}

#[test]
fn a_damaged_correction_and_a_damaged_machine_column() {
    let correction = same::write_exactly(&[2, 9], &[-1, 4], Edition::Plain, 9);
    let mut broken = THREE_PAIRS;
    broken[12] = 6; // Seven places where there is room for three.
    let cases: [(&[u8], Refusal); 6] = [
        (&[], Refusal::Short { bytes: 0 }),
        (&[1, 0x80, 0], Refusal::Number { place: 2 }),
        (&[5], Refusal::Edition),
        (&[1, 3, 6, 16, 0, 2, 0, 1, 1], Refusal::Header),
        (&THREE_PAIRS[..26], Refusal::Length),
        (&broken, Refusal::Broken),
    ];
    for (bad, refusal) in cases {
        // A refused correction refuses the call, whatever the machine column says.
        for machine in [&THREE_PAIRS[..], &correction, bad] {
            for id in [0, 2, 5] {
                let refused = Err((Layer::Correction, refusal));
                assert_eq!(look_up(machine, bad, id), refused, "{id}");
            }
        }
        // A refused machine column does not matter where the correction holds the id.
        let in_correction = found(Layer::Correction, 0, -1, NO_WORDS);
        assert_eq!(look_up(bad, &correction, 2), in_correction);
        for id in [0, 7] {
            let refused = Err((Layer::Machine, refusal));
            assert_eq!(look_up(bad, &correction, id), refused, "{id}");
            assert!(std::ptr::eq(
                signalfern::layered_values(bad, &correction, id),
                &bad[..0]
            ));
        }
    }
}

#[test]
fn changed_bytes() {
    let mut random = Random::new(63);
    let mut tally = Tally::default();
    let mut columns = small_columns(&mut random);
    columns.extend(large_columns(&mut random));
    for machine in &columns {
        for _ in 0..40 {
            let above = random.below(columns.len());
            let mut layers = [machine.clone(), columns[above].clone()];
            for _ in 0..random.below(3) {
                let bytes = &mut layers[random.below(2)];
                let at = random.below(bytes.len().min(300));
                bytes[at] ^= 1 << random.below(8);
            }
            let ids = [asked(machine), asked(&columns[above])].concat();
            for _ in 0..4 {
                let answer = look_up(&layers[0], &layers[1], random.pick(&ids));
                tally.count(answer.err().map(|(_, refusal)| refusal));
            }
        }
    }
    tally.has(&[0, 8, 9, 10, 11, 14, 15]);
}
