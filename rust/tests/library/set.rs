//! Sets on disk (document 02, [14]): as the list has it, beside the reference, and beside a column of the
//! same ids.

use crate::common::same::filling;
use crate::common::{few_ids, ids_of, Random, EDITIONS, POWERS};
use signalfern::{Checked, Refusal, Set, MAX_ID};
use signalfern_reference as reference;

fn numbers(refusal: Refusal) -> (u64, u64) {
    (refusal.number(), refusal.number_with())
}

fn plain<T>(result: Result<T, reference::Refusal>) -> Result<T, (u64, u64)> {
    result.map_err(|refusal| (refusal.number, refusal.with))
}

/// Writes to `room` bytes beside the reference; gives the set if there was one.
#[track_caller]
fn write(ids: &[u32], room: usize) -> Result<Vec<u8>, Refusal> {
    let before = filling(room);
    let (mut ours, mut theirs) = (before.clone(), before.clone());
    let result = signalfern::set_write(ids, &mut ours);
    let expected = plain(reference::set_write(ids, &mut theirs));
    assert_eq!(result.map(|len| len as u64).map_err(numbers), expected);
    assert!(ours == theirs, "other bytes");
    let changed = result.unwrap_or(0);
    assert!(ours[changed..] == before[changed..], "bytes after the set");
    ours.truncate(changed);
    result.map(|_| ours)
}

/// Writes to just the room that is needed, and to one byte less.
#[track_caller]
fn write_exactly(ids: &[u32]) -> Vec<u8> {
    let Err(Refusal::Room { needed }) = write(ids, 0) else {
        panic!("a list of ids that can be written");
    };
    assert_eq!(write(ids, needed - 1), Err(Refusal::Room { needed }));
    write(ids, needed).expect("room for the set")
}

#[track_caller]
fn check(bytes: &[u8]) -> Result<u64, Refusal> {
    let result = signalfern::set_check(bytes);
    assert_eq!(result.map_err(numbers), plain(reference::set_check(bytes)));
    result
}

#[track_caller]
fn find(bytes: &[u8], id: u32) -> Result<Option<u64>, Refusal> {
    let result = signalfern::set_find(bytes, id);
    let expected = plain(reference::set_find(bytes, id));
    assert_eq!(result.map_err(numbers), expected, "id {id}");
    result
}

/// Ids around those of a list, and the ends.
fn asked(random: &mut Random, ids: &[u32], count: usize) -> Vec<u32> {
    let mut asked = vec![0, 65_535, 65_536, MAX_ID - 1, MAX_ID, MAX_ID + 1, u32::MAX];
    for _ in 0..count.min(ids.len()) {
        let id = random.pick(ids);
        asked.extend([id, id.saturating_sub(1), id + 1]);
    }
    asked
}

/// The set and a column of the ids: both tell each membership as the list has it.
#[track_caller]
fn alike(random: &mut Random, ids: &[u32]) -> Vec<u8> {
    let bytes = write_exactly(ids);
    assert_eq!(check(&bytes), Ok(ids.len() as u64));
    let set = Set::new(&bytes).unwrap();
    assert_eq!((set.len(), set.is_empty()), (ids.len(), ids.is_empty()));
    let values = vec![7; ids.len()];
    let (edition, power) = (random.pick(&EDITIONS), random.pick(&POWERS));
    let column = signalfern::write_to_vec(ids, &values, edition, power).unwrap();
    let column = Checked::new(&column).unwrap().column();
    for id in asked(random, ids, 20) {
        let ordinal = find(&bytes, id);
        let listed = ids.binary_search(&id).ok().map(|index| index as u64);
        if id > MAX_ID {
            assert_eq!(ordinal, Err(Refusal::Id));
        } else {
            assert_eq!(ordinal, Ok(listed), "id {id}");
        }
        assert_eq!(column.look_up(id).map(|answer| answer.ordinal()), ordinal);
        assert_eq!(set.ordinal(id), listed);
        assert_eq!(set.contains(id), listed.is_some());
    }
    bytes
}

/// The bytes of a block after its number, by document 02: kind, list length, data.
fn block_bytes(count: usize) -> usize {
    match count {
        0..=127 => 2 + 2 * count,
        128..=4096 => 3 + 2 * count,
        65_409..=65_536 => 2 + 2 * (65_536 - count),
        61_441.. => 3 + 2 * (65_536 - count),
        _ => 2 + 8192,
    }
}

#[test]
fn both_sides_of_each_kind() {
    let mut random = Random::new(14);
    for count in [
        1, 127, 128, 4095, 4096, 4097, 30_000, 61_439, 61_440, 61_441, 65_408, 65_409, 65_534,
        65_535, 65_536,
    ] {
        let ids = ids_of(&mut random, &[(0, count), (5, count), (32_765, count)]);
        let bytes = alike(&mut random, &ids);
        let numbers = 1 + 1 + 1 + 3;
        assert_eq!(bytes.len(), numbers + 3 * block_bytes(count), "{count} ids");
    }
}

#[test]
fn worked_bytes() {
    assert_eq!(write_exactly(&[]), [0]);
    assert_eq!(
        write_exactly(&[MAX_ID]),
        [1, 0xFD, 0xFF, 1, 0, 1, 0xFF, 0xFF]
    );
    // A full block has nothing missing.
    let full: Vec<u32> = (0..65_536).collect();
    assert_eq!(write_exactly(&full), [1, 0, 1, 0]);
    // 003's example: all but two.
    let but_two: Vec<u32> = (0..65_536).filter(|id| ![3, 258].contains(id)).collect();
    assert_eq!(write_exactly(&but_two), [1, 0, 1, 2, 3, 0, 2, 1]);
}

#[test]
fn refusals_of_the_writer() {
    let mut random = Random::new(41);
    assert_eq!(write(&[4, 4], 99), Err(Refusal::Order { index: 1 }));
    assert_eq!(write(&[MAX_ID + 1], 0), Err(Refusal::Range { index: 0 }));
    // ORDER over the whole list before RANGE, RANGE before ROOM.
    assert_eq!(
        write(&[MAX_ID + 1, 4, 3], 99),
        Err(Refusal::Order { index: 1 })
    );
    for _ in 0..200 {
        let mut ids = few_ids(&mut random, 40);
        if ids.len() > 1 {
            let at = random.below(ids.len());
            ids[at] = random.pick(&[0, ids[0], u32::MAX, MAX_ID, MAX_ID + 1]);
        }
        let room = random.below(120);
        let _ = write(&ids, room);
    }
}

#[test]
fn lists_of_all_shapes() {
    let mut random = Random::new(2);
    for _ in 0..300 {
        let ids = few_ids(&mut random, 60);
        alike(&mut random, &ids);
    }
    for _ in 0..25 {
        let mut numbers: Vec<u32> = (0..4).map(|_| random.below(32_766) as u32).collect();
        numbers.sort_unstable();
        numbers.dedup();
        let counts = [1, 300, 4096, 4097, 20_000, 61_440, 61_441, 65_000, 65_536];
        let blocks: Vec<(u32, usize)> = (numbers.into_iter())
            .map(|number| (number, random.pick(&counts)))
            .collect();
        let ids = ids_of(&mut random, &blocks);
        alike(&mut random, &ids);
    }
}

#[test]
fn every_cut_of_a_small_set() {
    let bytes = write_exactly(&[3, 200, 70_000, MAX_ID]);
    // The set's number and those of its blocks end at these bytes; between them stand the lists.
    let lists = [4..8, 11..13, 18..20];
    for cut in 0..bytes.len() {
        let within_list = lists.iter().any(|list| list.contains(&cut));
        let expected = match within_list {
            true => Refusal::Damaged,
            false => Refusal::Short { bytes: cut },
        };
        assert_eq!(check(&bytes[..cut]), Err(expected), "{cut} bytes");
        assert_eq!(find(&bytes[..cut], 3), Err(expected), "{cut} bytes");
    }
    let followed = [&bytes[..], &[0]].concat();
    assert_eq!(check(&followed), Err(Refusal::Damaged));
}

#[test]
fn every_changed_byte() {
    let mut random = Random::new(3);
    let mut accepted = 0;
    let full = (65_536 * 2..65_536 * 3).filter(|id| id % 9000 != 0);
    let ids: Vec<u32> = [3, 200, 70_000].into_iter().chain(full).collect();
    let bytes = write_exactly(&ids);
    for place in 0..bytes.len() {
        for value in 0..=255 {
            let mut changed = bytes.clone();
            changed[place] = value;
            let checked = check(&changed);
            let id = random.pick(&[3, 200, 70_000, 65_536 * 2 + 9000]);
            let found = find(&changed, id);
            assert_eq!(found.err(), checked.err());
            if checked.is_ok() && value != bytes[place] {
                // Another list, whose bytes these are.
                accepted += 1;
                let members =
                    (0..65_536 * 3).filter(|&id| Set::new(&changed).unwrap().contains(id));
                if accepted % 400 == 1 {
                    assert_eq!(write_exactly(&members.collect::<Vec<u32>>()), changed);
                }
            }
        }
    }
    assert!(accepted > 100, "{accepted}");
}

#[test]
fn a_bitmap_of_another_kinds_count() {
    let mut random = Random::new(4);
    for (count, other) in [(4097, 4096), (61_440, 61_441)] {
        let mut bytes = write_exactly(&ids_of(&mut random, &[(0, count)]));
        let (more, less) = (other > count, other < count);
        let byte = bytes[4..]
            .iter_mut()
            .find(|byte| if more { **byte != 0xFF } else { **byte != 0 })
            .unwrap();
        if less {
            *byte &= *byte - 1;
        } else {
            *byte |= *byte + 1;
        }
        assert_eq!(check(&bytes), Err(Refusal::Damaged), "{count} to {other}");
    }
}

#[test]
fn any_bytes() {
    let mut random = Random::new(5);
    for _ in 0..60_000 {
        let len = random.below(14);
        let small = |random: &mut Random| random.pick(&[0, 1, 1, 2, 3, 4, 0x80, 0x81, 0xFF]);
        let bytes: Vec<u8> = (0..len).map(|_| small(&mut random)).collect();
        let checked = check(&bytes);
        let found = find(&bytes, random.pick(&[0, 1, 2, 258, 65_536, MAX_ID]));
        assert_eq!(found.err(), checked.err(), "{bytes:?}");
    }
}

/// A set of full blocks is small, and so is the time for it: all ids that there can be.
#[test]
fn all_ids() {
    let mut bytes = vec![0xFE, 0xFF, 1];
    for block in 0..32_766_u32 {
        for (shift, more) in [(0, block > 127), (7, block > 16_383), (14, false)] {
            if shift == 0 || block >> shift > 0 {
                bytes.push((block >> shift) as u8 & 0x7F | if more { 0x80 } else { 0 });
            }
        }
        bytes.extend([1, 0]);
    }
    assert_eq!(check(&bytes), Ok(u64::from(MAX_ID) + 1));
    for id in [0, 65_535, 1 << 30, MAX_ID] {
        assert_eq!(find(&bytes, id), Ok(Some(u64::from(id))));
    }
}
