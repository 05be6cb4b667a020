//! A page and a reading with a correction on top: on columns as the two lists have them, on damaged ones as each
//! single call does.

use super::next::{damage, high_pairs, HIGH};
use super::*;

/// The machine column's list with the correction's pairs in it.
fn merged(machine: &BTreeMap<u32, i64>, correction: &BTreeMap<u32, i64>) -> Vec<(u32, i64, u8)> {
    let mut both: BTreeMap<u32, (i64, u8)> = BTreeMap::new();
    both.extend(machine.iter().map(|(&id, &value)| (id, (value, 0))));
    both.extend(correction.iter().map(|(&id, &value)| (id, (value, 1))));
    both.into_iter()
        .map(|(id, (value, by))| (id, value, by))
        .collect()
}

type Read = Result<(Vec<(u32, i64, u8)>, bool), (Layer, Refusal)>;

/// The pairs in lists of which the shortest has so many places; every other place stays.
fn read(random: &mut Random, machine: &[u8], correction: &[u8], id: u32, room: usize) -> Read {
    let mut rooms = [room; 3];
    rooms[random.below(3) as usize] += random.below(3) as usize;
    let (mut ids, mut values) = (vec![77; rooms[0]], vec![-77; rooms[1]]);
    let mut columns = vec![9; rooms[2]];
    let reply = read_layered_from(machine, correction, id, &mut ids, &mut values, &mut columns);
    let count = reply.map_or(0, |it| it.count);
    assert!(ids[count..].iter().all(|&id| id == 77));
    assert!(values[count..].iter().all(|&value| value == -77));
    assert!(columns[count..].iter().all(|&by| by == 9));
    if let (Ok(x), Ok(y)) = (open(machine), open(correction)) {
        let (mut i, mut v, mut b) = (vec![77; rooms[0]], vec![-77; rooms[1]], vec![9; rooms[2]]);
        let (m, c) = ((&x, machine), (&y, correction));
        let opened = read_layered_from_in(m, c, id, &mut i, &mut v, &mut b);
        assert_eq!((opened, &i, &v, &b), (reply, &ids, &values, &columns));
    }
    let pairs = (0..count).map(|at| (ids[at], values[at], columns[at]));
    reply.map(|it| (pairs.collect(), it.ended))
}

#[test]
fn as_the_two_lists_have_them() {
    let mut random = Random(51);
    for round in 0..16 {
        let (below, above) = (some_pairs(&mut random), some_pairs(&mut random));
        let machine = plain_column(&below, EDITIONS[round % 4], [0, 7, 9, 15][round / 4 % 4]);
        let correction = plain_column(&above, EDITIONS[round / 2 % 4], 9);
        let list = merged(&below, &above);
        for _ in 0..10 {
            let id = match random.below(4) {
                0 if !list.is_empty() => list[random.below(list.len() as u64) as usize].0,
                1 => MAX_ID,
                _ => random.below(210 << 16) as u32,
            };
            let room = [0, 1, 3, 30, 200][random.below(5) as usize];
            let rest = &list[list.partition_point(|pair| pair.0 < id)..];
            let count = room.min(rest.len());
            let expected = Ok((rest[..count].to_vec(), rest.len() <= room));
            assert_eq!(read(&mut random, &machine, &correction, id, room), expected);
        }
    }
    let refused = Err((Layer::Correction, Refusal::ID));
    assert_eq!(read(&mut random, &[], &[], MAX_ID + 1, 3), refused);
}

/// The next of both, each id tried: the sooner one, unless a column refuses.
fn single(
    machine: &[u8],
    correction: &[u8],
    id: u32,
) -> Result<Option<(u32, i64, u8)>, (Layer, Refusal)> {
    let above = next_by_each_id(&mut 0, correction, id).map_err(|it| (Layer::Correction, it))?;
    let below = next_by_each_id(&mut 0, machine, id).map_err(|it| (Layer::Machine, it))?;
    let told = |it: Option<Candidate>, by| it.map(|it| (it.id, it.value, by));
    let both = [told(above, 1), told(below, 0)];
    Ok(both.into_iter().flatten().min_by_key(|pair| pair.0))
}

#[test]
fn on_damaged_columns_as_the_single_calls() {
    let mut random = Random(52);
    let mut told = [0; 4];
    for round in 0..40 {
        let mut layers = [high_pairs(&mut random), high_pairs(&mut random)]
            .map(|pairs| plain_column(&pairs, EDITIONS[round % 4], [0, 7, 9, 15][round / 4 % 4]));
        for _ in 0..6 {
            damage(&mut random, &mut layers[round % 2]);
            let [machine, correction] = &layers;
            let id = (HIGH << 16) + random.below(u64::from(MAX_ID - (HIGH << 16))) as u32;
            let room = random.below(4) as usize;
            let reply = read(&mut random, machine, correction, id, room);
            let mut coming = single(machine, correction, id);
            let Ok((pairs, ended)) = reply else {
                assert_eq!(reply.err(), coming.err());
                told[usize::from(coming.is_err_and(|it| it.0 == Layer::Correction))] += 1;
                continue;
            };
            for pair in &pairs {
                assert_eq!(coming, Ok(Some(*pair)));
                coming = match pair.0 {
                    MAX_ID => Ok(None),
                    id => single(machine, correction, id + 1),
                };
            }
            assert_eq!(ended, coming == Ok(None));
            assert!(ended || pairs.len() == room || coming.is_err());
            told[2 + usize::from(ended)] += 1;
        }
    }
    // Refused by each column, more and ended.
    assert!(told.iter().all(|&count| count > 3), "{told:?}");
}

#[test]
fn a_page_by_the_single_look_ups() {
    let mut random = Random(53);
    for round in 0..20 {
        let mut layers = [some_pairs(&mut random), some_pairs(&mut random)];
        let listed: Vec<u32> = layers.iter().flat_map(|it| it.keys().copied()).collect();
        // Some ids in both.
        for (i, &id) in listed.iter().enumerate().step_by(7) {
            layers[i % 2].insert(id, i as i64);
        }
        let mut columns = layers.map(|it| plain_column(&it, EDITIONS[round % 4], 9));
        for damaged in [false, true] {
            if damaged {
                let column = &mut columns[random.below(2) as usize];
                let at = random.below(column.len().min(600) as u64) as usize;
                column[at] ^= 1 << random.below(8);
            }
            let ids: Vec<u32> = (0..100)
                .map(|_| match random.below(4) {
                    0 => random.below(1 << 32) as u32,
                    1 => random.below(220 << 16) as u32,
                    _ if listed.is_empty() => 0,
                    _ => listed[random.below(listed.len() as u64) as usize],
                })
                .collect();
            by_the_single_look_ups(&columns[0], &columns[1], &ids);
        }
    }
}

fn by_the_single_look_ups(machine: &[u8], correction: &[u8], ids: &[u32]) {
    let n = ids.len();
    let (mut o, mut v, mut k, mut c) = (vec![77; n + 2], vec![77; n], vec![77; n], vec![77; n + 1]);
    let sums = look_up_layered_page(machine, correction, ids, &mut o, &mut v, &mut k, &mut c);
    let mut expected = (0, 0);
    for (i, &id) in ids.iter().enumerate() {
        let place = (k[i], o[i], v[i], c[i]);
        let by = |layer: Layer| layer as u8;
        match look_up_layered(machine, correction, id) {
            Ok(LayeredAnswer::Found {
                layer,
                ordinal,
                value,
                machine_words,
                correction_words,
            }) => {
                assert_eq!(place, (0, ordinal, value, by(layer)));
                expected = (expected.0 + machine_words, expected.1 + correction_words);
            }
            Ok(LayeredAnswer::Absent {
                machine_words,
                correction_words,
            }) => {
                assert_eq!(place, (1, 0, 0, 0));
                expected = (expected.0 + machine_words, expected.1 + correction_words);
            }
            Err((layer, refusal)) => assert_eq!(place, (refusal.number as u8, 0, 0, by(layer))),
        }
    }
    assert_eq!(sums, Ok(expected));
    assert_eq!((o[n..].to_vec(), c[n]), (vec![77, 77], 77));
    if let (Ok(x), Ok(y)) = (open(machine), open(correction)) {
        let (m, d) = ((&x, machine), (&y, correction));
        let (mut o2, mut v2, mut k2, mut c2) =
            (vec![77; n + 2], vec![77; n], vec![77; n], vec![77; n + 1]);
        let opened = look_up_layered_page_in(m, d, ids, &mut o2, &mut v2, &mut k2, &mut c2);
        assert_eq!((opened, o2, v2, k2, c2), (sums, o, v, k, c));
    }
}

#[test]
fn a_list_that_is_too_short() {
    let column = plain_column(&BTreeMap::from([(0, 150), (2, 140), (7, 135)]), 1, 9);
    for short in 0..4 {
        let room = |list| 3 - usize::from(list == short);
        let (mut o, mut v, mut k, mut c) = (
            vec![7; room(0)],
            vec![7; room(1)],
            vec![7; room(2)],
            vec![7; room(3)],
        );
        for bytes in [&column[..], &[]] {
            let reply =
                look_up_layered_page(bytes, bytes, &[2, 3, 7], &mut o, &mut v, &mut k, &mut c);
            assert_eq!(reply, Err(Refusal::buffer(3)));
            assert!(o.iter().all(|&it| it == 7) && v.iter().all(|&it| it == 7));
            assert!(k.iter().chain(&c).all(|&it| it == 7));
        }
    }
}
