//! A page and a reading of a machine column with a correction on top: on columns as the two lists have them, on other
//! bytes beside the reference. Every place of each list is compared.

use std::collections::BTreeMap;

use crate::common::damage::{asked, large_columns, small_columns, Tally};
use crate::common::in_layers::{page, page_in, read, read_in, Read};
use crate::common::parts::Parts;
use crate::common::{
    changes, few_ids, ids_of, same, values_of_width, Random, EDITIONS, POWERS, THREE_PAIRS,
};
use signalfern::{Checked, Column, Edition, Header, Layered, Refusal, MAX_ID};
use signalfern_reference::Layer;

/// Two lists and their columns.
struct Both {
    pairs: Vec<(u32, i64, u8)>,
    machine: Vec<u8>,
    correction: Vec<u8>,
}

impl Both {
    /// Two lists of these ids, of any editions and powers.
    fn new(random: &mut Random, machine: &[u32], correction: &[u32]) -> Self {
        let (mut merged, mut columns) = (BTreeMap::new(), Vec::new());
        for (by, ids) in [machine, correction].into_iter().enumerate() {
            let width = random.below(65) as u32;
            let values = values_of_width(random, ids.len(), width);
            let pairs = ids.iter().zip(&values);
            merged.extend(pairs.map(|(&id, &value)| (id, (value, by as u8))));
            let (edition, power) = (random.pick(&EDITIONS), random.pick(&POWERS));
            columns.push(signalfern::write_to_vec(ids, &values, edition, power).unwrap());
        }
        let correction = columns.pop().unwrap();
        Self {
            pairs: (merged.into_iter())
                .map(|(id, (value, by))| (id, value, by))
                .collect(),
            machine: columns.pop().unwrap(),
            correction,
        }
    }

    fn from(&self, id: u32) -> &[(u32, i64, u8)] {
        &self.pairs[self.pairs.partition_point(|pair| pair.0 < id)..]
    }

    /// Reads from each id, with lists of several lengths.
    #[track_caller]
    fn read(&self, random: &mut Random, starts: &[u32]) {
        for &id in starts {
            let room = random.pick(&[0, 1, 2, 15, 16, 17, 33, 63, 64, 511, 513, 1100]);
            let mut lens = [room; 3];
            lens[random.below(3)] += random.pick(&[0, 1, 5]);
            lens[random.below(3)] += random.pick(&[0, 1, 5]);
            let room = lens.into_iter().min().unwrap();
            let rest = self.from(id);
            let count = room.min(rest.len());
            let expected = Ok((rest[..count].to_vec(), rest.len() <= room));
            let got = read(&self.machine, &self.correction, id, lens);
            assert!(got == expected, "{room} places from {id}");
        }
    }

    /// Reads the whole by calls one after the other, each with room for so many pairs.
    #[track_caller]
    fn one_after_the_other(&self, room: usize) {
        let opened = [&self.machine, &self.correction].map(|it| Column::open(it).unwrap());
        let both = Layered::new(opened[0], opened[1]);
        let (mut ids, mut values, mut columns) = (vec![0; room], vec![0; room], vec![0; room]);
        let (mut all, mut from) = (Vec::new(), 0);
        loop {
            let got = both.read_from(from, &mut ids, &mut values, &mut columns);
            let got = got.unwrap();
            all.extend((0..got.count).map(|at| (ids[at], values[at], columns[at])));
            if got.ended {
                break;
            }
            assert_eq!(got.count, room);
            from = ids[room - 1] + 1;
        }
        assert!(all == self.pairs, "by {room}");
    }

    /// The list by what is made of two checked columns.
    #[track_caller]
    fn as_a_list(&self, random: &mut Random, starts: &[u32]) {
        let checked = [&self.machine, &self.correction].map(|it| Checked::new(it).unwrap());
        let both = Layered::new(checked[0], checked[1]);
        let told = |(id, value, layer): (u32, i64, signalfern::Layer)| (id, value, layer.number());
        assert!(both.iter().map(told).eq(self.pairs.iter().copied()));
        let mut ids = vec![MAX_ID + 1, u32::MAX];
        for &id in starts {
            let rest = self.from(id);
            let mut walk = both.iter_from(id);
            for taken in 0..3 {
                let (least, most) = walk.size_hint();
                let left = rest.len().saturating_sub(taken);
                assert!(least <= left && left <= most.unwrap(), "{left} of {walk:?}");
                assert_eq!(walk.next().map(told), rest.get(taken).copied());
            }
            ids.extend([id, rest.first().map_or(7, |pair| pair.0)]);
        }
        for end in [MAX_ID + 1, u32::MAX] {
            assert_eq!(both.iter_from(end).next(), None);
        }
        let known = ids.clone();
        ids.extend((0..1200).map(|_| random.pick(&known)));
        let expected: Vec<Option<(i64, u8)>> = (ids.iter())
            .map(|id| {
                let at = self.pairs.binary_search_by_key(id, |pair| pair.0).ok()?;
                Some((self.pairs[at].1, self.pairs[at].2))
            })
            .collect();
        let values: Vec<Option<i64>> = expected.iter().map(|it| it.map(|it| it.0)).collect();
        assert_eq!(both.get_page(&ids).unwrap(), values);
        for (&id, pair) in ids.iter().zip(expected).take(60) {
            assert_eq!(both.get(id), pair.map(|it| it.0));
            assert_eq!(both.layer_of(id).map(|it| it.number()), pair.map(|it| it.1));
        }
    }

    /// Pages of ids near these.
    #[track_caller]
    fn paged(&self, random: &mut Random, near: &[u32]) {
        let ids: Vec<u32> = (0..random.pick(&[0, 1, 30, 150]))
            .map(|_| match random.below(8) {
                0 => random.next() as u32,
                _ => random.pick(near).saturating_add(random.below(3) as u32),
            })
            .collect();
        let mut rooms = [ids.len(); 4];
        rooms[random.below(4)] += random.below(4);
        let paged = page(&self.machine, &self.correction, &ids, rooms).unwrap();
        for (i, id) in ids.iter().enumerate() {
            let pair = self.pairs.binary_search_by_key(id, |pair| pair.0);
            let pair = pair.ok().map(|at| self.pairs[at]);
            let kind = if *id > MAX_ID {
                14
            } else {
                u8::from(pair.is_none())
            };
            assert_eq!(paged.0.kinds[i], kind, "id {id}");
            assert_eq!(paged.0.values[i], pair.map_or(0, |it| it.1), "id {id}");
            let column = pair.map_or(u8::from(kind == 14), |it| it.2);
            assert_eq!(paged.0.columns[i], column, "id {id}");
        }
    }
}

/// Ids at the borders of these blocks and their neighbours.
fn starts(random: &mut Random, ids: &[u32]) -> Vec<u32> {
    let mut starts = vec![0, 1, 65_535, 65_536, MAX_ID - 1, MAX_ID];
    for _ in 0..12 {
        if !ids.is_empty() {
            let id = random.pick(ids);
            starts.extend([id, id.saturating_sub(1), (id + 1).min(MAX_ID)]);
        }
        starts.push(random.below(MAX_ID as usize) as u32);
    }
    starts
}

#[test]
fn over_blocks_of_every_kind() {
    let mut random = Random::new(160);
    let shapes: [&[(u32, usize)]; 9] = [
        &[],
        &[(0, 3), (1, 1)],
        &[(2, 5), (3, 65_536), (9, 4096)],
        &[(0, 65_536), (1, 65_536)],
        &[(5, 4095), (6, 4096), (100, 2)],
        &[(0, 1), (32_765, 1)],
        &[(32_764, 5000), (32_765, 65_535)],
        &[(0, 600), (1, 40)],
        &[(0, 20_000)],
    ];
    for below in shapes {
        for above in shapes {
            let (machine, mut correction) =
                (ids_of(&mut random, below), ids_of(&mut random, above));
            // Each second time some of the machine column's ids.
            if random.one_in(2) {
                correction.extend(machine.iter().step_by(1 + random.below(50)));
                correction.sort_unstable();
                correction.dedup();
            }
            let both = Both::new(&mut random, &machine, &correction);
            let all: Vec<u32> = both.pairs.iter().map(|pair| pair.0).collect();
            let starts = starts(&mut random, &all);
            let some: Vec<u32> = starts.iter().copied().step_by(6).collect();
            both.read(&mut random, &some);
            both.paged(&mut random, &starts);
            both.as_a_list(&mut random, &starts[..12]);
            for room in [63, 513, 65_536] {
                both.one_after_the_other(room);
            }
        }
    }
}

#[test]
fn many_short_lists() {
    let mut random = Random::new(161);
    for _ in 0..120 {
        let most = random.pick(&[1, 12, 60, 1200]);
        let (machine, mut correction) = (few_ids(&mut random, most), few_ids(&mut random, 40));
        let again = random.below(20);
        for _ in 0..again {
            if !machine.is_empty() {
                correction.push(random.pick(&machine));
            }
        }
        correction.sort_unstable();
        correction.dedup();
        let both = Both::new(&mut random, &machine, &correction);
        let all: Vec<u32> = both.pairs.iter().map(|pair| pair.0).collect();
        let starts = starts(&mut random, &all);
        both.read(&mut random, &starts);
        both.paged(&mut random, &starts);
        both.as_a_list(&mut random, &starts);
        both.one_after_the_other(1 + random.below(50));
    }
}

#[test]
fn a_list_of_a_page_too_short() {
    let column = THREE_PAIRS;
    for ids in [&[7][..], &[2, 3, MAX_ID + 1]] {
        for short in 0..4 {
            let mut rooms = [ids.len() + 1; 4];
            rooms[short] = ids.len() - 1;
            let refusal = Err(Refusal::Buffer { needed: ids.len() });
            let header = Column::open(&column).unwrap().header();
            for bytes in [&column[..], &[]] {
                assert_eq!(page(bytes, &column, ids, rooms).map(|_| ()), refusal);
                assert_eq!(page(&column, bytes, ids, rooms).map(|_| ()), refusal);
                let opened = page_in((header, bytes), (header, bytes), ids, rooms);
                assert_eq!(opened.map(|_| ()), refusal);
            }
        }
    }
    assert!(page(&[], &[], &[], [0; 4]).is_ok());
}

/// The machine column is opened only where some id is absent in the correction.
#[test]
fn a_page_with_a_header_refused() {
    let kinds_and_columns = |machine: &[u8], correction: &[u8], ids: &[u32]| {
        let paged = page(machine, correction, ids, [ids.len(); 4]).unwrap();
        (paged.0.kinds, paged.0.columns)
    };
    let (column, ids) = (THREE_PAIRS, [0, 5, 7, MAX_ID + 1]);
    let by_correction = (vec![7, 7, 7, 14], vec![1; 4]);
    assert_eq!(kinds_and_columns(&column, &[], &ids), by_correction);
    let by_machine = (vec![0, 7, 0, 14], vec![1, 0, 1, 1]);
    assert_eq!(kinds_and_columns(&[], &column, &ids), by_machine);
    let found = (vec![0, 0], vec![1, 1]);
    assert_eq!(kinds_and_columns(&[], &column, &[0, 7]), found);
}

const BROKEN: Refusal = Refusal::Broken;

/// A reading does not pass over a pair that cannot be read.
#[test]
fn refused_where_the_first_step_is() {
    let rooms = |room| [room, room + 1, room + 2];
    let told = |pairs: &[(u32, i64, u8)], ended| -> Read { Ok((pairs.to_vec(), ended)) };
    // Ids 0 and 9, of which the second's value cannot be read: with divisor 8, at byte 16, it does not fit.
    let values = [i64::MAX - 7, i64::MAX];
    let mut broken = same::write_exactly(&[0, 9], &values, Edition::Plain, 9);
    broken[16] = 8;
    let sound = same::write_exactly(&[2, 5, 9], &[-2, -5, -9], Edition::Plain, 9);
    let great = i64::MAX - 7;
    // The correction's 2 and 5 are nearer than the machine column's 9, and are not handed out.
    assert_eq!(
        read(&broken, &sound, 0, rooms(9)),
        told(&[(0, great, 0)], false)
    );
    for id in [1, 2, 5, 6, 9] {
        for room in [0, 1, 9] {
            let refused = Err((Layer::Machine, BROKEN));
            assert_eq!(read(&broken, &sound, id, rooms(room)), refused, "from {id}");
        }
    }
    // The other way round: the correction's refusal.
    assert_eq!(
        read(&sound, &broken, 0, rooms(9)),
        told(&[(0, great, 1)], false)
    );
    let refused = Err((Layer::Correction, BROKEN));
    assert_eq!(read(&sound, &broken, 1, rooms(0)), refused);
    // Above the damage both go on.
    assert_eq!(read(&sound, &broken, 10, rooms(3)), told(&[], true));
    // Both refuse: the correction's comes first.
    assert_eq!(read(&broken, &broken, 1, rooms(3)), refused);
    assert_eq!(read(&[], &broken, 1, rooms(3)), refused);
    let short = Refusal::Short { bytes: 0 };
    assert_eq!(read(&[], &sound, 0, rooms(0)), Err((Layer::Machine, short)));
    assert_eq!(
        read(&sound, &[], 0, rooms(3)),
        Err((Layer::Correction, short))
    );
    let too_great = Err((Layer::Correction, Refusal::Id));
    assert_eq!(read(&[], &[], MAX_ID + 1, rooms(3)), too_great);
    // A machine column that is refused is not passed over where the correction has pairs.
    assert_eq!(read(&[], &sound, 2, rooms(9)), Err((Layer::Machine, short)));
}

#[test]
fn by_other_numbers() {
    let column = THREE_PAIRS;
    let sound = Column::open(&column).unwrap().header();
    let mut none = sound;
    none.edition = 9;
    let from = |x: Header, machine: &[u8], y: Header, correction: &[u8], id| {
        read_in((x, machine), (y, correction), id, [2, 3, 4])
    };
    let header = Err((Layer::Correction, Refusal::Header));
    assert_eq!(from(sound, &column, none, &column, 0), header);
    assert_eq!(from(none, &column, none, &[], 0), header);
    let header = Err((Layer::Machine, Refusal::Header));
    assert_eq!(from(none, &column, sound, &column, 0), header);
    let length = Err((Layer::Correction, Refusal::Length));
    assert_eq!(from(none, &[], sound, &column[1..], 0), length);
    let length = Err((Layer::Machine, Refusal::Length));
    assert_eq!(from(sound, &column[1..], sound, &column, 0), length);
    let too_great = Err((Layer::Correction, Refusal::Id));
    assert_eq!(from(none, &[], none, &[], MAX_ID + 1), too_great);
    let pairs = Ok((vec![(0, 150, 1), (2, 140, 1)], false));
    assert_eq!(from(sound, &column, sound, &column, 0), pairs);
    let ids = [2, 3, MAX_ID + 1];
    let kinds = |x: Header, y: Header| page_in((x, &column), (y, &column), &ids, [3; 4]);
    assert_eq!(kinds(none, sound), Ok(vec![0, 10, 14]));
    assert_eq!(kinds(sound, none), Ok(vec![10, 10, 14]));
}

#[test]
fn on_changed_ids_and_values() {
    let mut random = Random::new(162);
    let mut told = [0; 6];
    for round in 0..150 {
        // A few blocks with few entries; or, in each fifth round, the last blocks, with all entries.
        let first = if round % 5 == 0 { 32_763 } else { 0 };
        let counts = [1, 3, 40, 700, 4095, 4500, 65_536];
        let mut columns = Vec::new();
        let mut listed = Vec::new();
        for _ in 0..2 {
            let mut blocks = vec![(first + random.below(2) as u32, random.pick(&counts))];
            if random.one_in(2) {
                blocks.push((first + 2, random.pick(&counts)));
            }
            let ids = ids_of(&mut random, &blocks);
            let values = values_of_width(&mut random, ids.len(), 5);
            let (edition, power) = (random.pick(&EDITIONS), random.pick(&POWERS));
            let column = signalfern::write_to_vec(&ids, &values, edition, power).unwrap();
            columns.push(column);
            listed.extend(ids);
        }
        let sound = [Parts::of(&columns[0]), Parts::of(&columns[1])];
        for turn in 0..5 {
            let mut bytes = columns.clone();
            for by in 0..2 {
                if turn % 3 != by {
                    bytes[by] = changes::changed(&mut random, &sound[by]);
                }
            }
            let near = random.pick(&listed).saturating_sub(random.below(9) as u32);
            let room = random.pick(&[0, 1, 3, 70, 600]);
            let lens = [room, room + random.below(3), room + random.below(2)];
            for id in [near, first << 16] {
                let got = read(&bytes[0], &bytes[1], id, lens);
                told[match got {
                    Ok((_, true)) => 0,
                    Ok((pairs, false)) if pairs.len() == room => 1,
                    Ok(_) => 2,
                    Err((Layer::Machine, BROKEN)) => 3,
                    Err((Layer::Correction, BROKEN)) => 4,
                    Err(_) => 5,
                }] += 1;
            }
            let ids: Vec<u32> = (0..20).map(|_| random.pick(&listed)).collect();
            page(&bytes[0], &bytes[1], &ids, [20, 21, 20, 22]).unwrap();
        }
    }
    assert!(told[..5].iter().all(|&count| count > 10), "{told:?}");
    assert_eq!(told[5], 0);
}

#[test]
fn on_changed_bytes_and_wild_headers() {
    let mut random = Random::new(163);
    let mut tallies = [Tally::default(), Tally::default()];
    let mut columns = small_columns(&mut random);
    columns.extend(large_columns(&mut random));
    for machine in &columns {
        for _ in 0..30 {
            let above = random.below(columns.len());
            let mut layers = [machine.clone(), columns[above].clone()];
            let headers = [0, 1].map(|by| {
                let sound = same::open(&layers[by]).unwrap().header();
                match random.below(3) {
                    0 => changes::wild(&mut random, sound, layers[by].len() as u64),
                    _ => sound,
                }
            });
            for _ in 0..random.below(3) {
                let bytes = &mut layers[random.below(2)];
                let at = random.below(bytes.len().min(300));
                bytes[at] ^= 1 << random.below(8);
            }
            let ids = [asked(machine), asked(&columns[above])].concat();
            let [m, c] = &layers;
            let id = random.pick(&ids);
            let room = random.pick(&[0, 1, 20, 130]);
            let lens = random.pick(&[
                [room; 3],
                [room + 2, room, room],
                [room, room + 1, room + 9],
            ]);
            let got = [
                read(m, c, id, lens),
                read_in((headers[0], m), (headers[1], c), id, lens),
            ];
            for got in got {
                match got {
                    Ok(_) => tallies[0].count(None),
                    Err((layer, refusal)) => tallies[layer as usize].count(Some(refusal)),
                }
            }
            page(m, c, &ids, [ids.len(), ids.len(), ids.len() + 1, ids.len()]).unwrap();
            let opened = page_in((headers[0], m), (headers[1], c), &ids, [ids.len(); 4]);
            opened.unwrap();
        }
    }
    tallies[0].has(&[0, 8, 9, 10, 11, 15]);
    tallies[1].has(&[8, 9, 10, 11, 14, 15]);
}
