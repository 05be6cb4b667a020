//! Lists at the borders: ids at the ends of blocks, blocks of each size and place, widths with
//! divisors, and lists with several faults at once. Each is written, checked, read and looked up
//! beside the reference, and the answers are those of the list.

use crate::common::damage::Tally;
use crate::common::{few_ids, same, values_of_width, Random, EDITIONS, LUCENE_WIDTHS, POWERS};
use signalfern::{Edition, Refusal, MAX_ID};
use signalfern_reference::Answer;

/// The first and the last id of each block, and some between them, by their index.
fn chosen(ids: &[u32]) -> impl Iterator<Item = usize> + '_ {
    let step = ids.len() / 40 + 1;
    (0..ids.len()).filter(move |&i| {
        let block = |i: usize| ids.get(i).map(|id| id >> 16);
        i % step == 0 || block(i) != block(i + 1) || block(i) != block(i.wrapping_sub(1))
    })
}

/// Writes the list in each edition and tries each call on its column; gives the columns.
fn there_and_back(ids: &[u32], values: &[i64], power: u32) -> [Vec<u8>; 4] {
    EDITIONS.map(|edition| written(ids, values, edition, power))
}

fn written(ids: &[u32], values: &[i64], edition: Edition, power: u32) -> Vec<u8> {
    let column = same::write_exactly(ids, values, edition, power);
    let mut asked = vec![0, MAX_ID, MAX_ID + 1, u32::MAX];
    for i in chosen(ids) {
        let (id, ordinal) = (ids[i], i as u64);
        let value = values[i];
        let answer = same::look_up(&column, id);
        assert!(
            matches!(answer, Ok(Answer::Found { ordinal: o, value: v, .. }) if o == ordinal && v == value),
            "{id}: {answer:?}"
        );
        for beside in [id.wrapping_sub(1), id + 1, id ^ 65_536] {
            let listed = ids.binary_search(&beside).is_ok();
            let found = matches!(same::look_up(&column, beside), Ok(Answer::Found { .. }));
            assert_eq!(found, listed, "{beside}");
        }
        asked.push(id);
    }
    asked.truncate(20);
    // Check, a reading that gives the list back, and look-ups in the opened column.
    Tally::default().try_all(&column, &asked);
    let count = ids.len();
    assert!(same::read(&column, count, count).unwrap() == (ids.to_vec(), values.to_vec()));
    if count > 0 {
        for (ids_len, values_len) in [(count - 1, count), (count, count - 1)] {
            let short = same::read(&column, ids_len, values_len);
            assert_eq!(short, Err(Refusal::Buffer { needed: count }));
        }
    }
    column
}

#[test]
fn no_id_one_or_two_at_borders() {
    let borders = [
        0,
        1,
        65_535,
        65_536,
        131_071,
        131_072,
        196_607,
        196_608,
        MAX_ID - 65_536,
        MAX_ID - 65_535,
        MAX_ID - 1,
        MAX_ID,
    ];
    for power in POWERS {
        there_and_back(&[], &[], power);
    }
    for (i, &high) in borders.iter().enumerate() {
        there_and_back(&[high], &[i as i64 - 5], POWERS[i % 10]);
        for &low in &borders[..i] {
            there_and_back(&[low, high], &[-7, i as i64], POWERS[i % 10]);
        }
    }
}

/// `count` places of a block: the first, the last, or spread over it.
fn placed(number: u32, count: u32, style: u32) -> Vec<u32> {
    let gap = if style == 2 { 65_536 / count } else { 1 };
    let first = if style == 1 { 65_536 - count } else { 0 };
    (0..count)
        .map(|i| (number << 16) + first + gap * i)
        .collect()
}

#[test]
fn one_block_of_each_size() {
    let counts = [
        1, 2, 63, 64, 65, 1000, 4094, 4095, 4096, 4097, 8192, 12_000, 65_535, 65_536,
    ];
    for (i, count) in counts.into_iter().enumerate() {
        for style in 0..3 {
            let ids = placed((i as u32 + style) % 4, count, style);
            let values: Vec<i64> = (0..i64::from(count)).map(|v| v % 5 - 2).collect();
            // Ranks matter to dense blocks alone.
            let dense = (4096..65_536).contains(&count);
            for &power in &POWERS[..if dense { 10 } else { 2 }] {
                there_and_back(&ids, &values, power);
            }
        }
    }
}

#[test]
fn several_blocks() {
    let mut random = Random::new(33);
    for round in 0..60 {
        // Two to four blocks of any kind, often with missing ones before and between them.
        let mut number = random.pick(&[0, 0, 1, 2, 300, 32_750]);
        let mut ids = Vec::new();
        for _ in 0..2 + random.below(3) {
            let count = match random.below(8) {
                0 | 1 => 1 + random.below(70),
                2 | 3 => 1 + random.below(4095),
                4 | 5 => 4096 + random.below(4096),
                6 => 4096 + random.below(20_000),
                _ => 65_536,
            };
            ids.extend(placed(number, count as u32, random.below(3) as u32));
            number += 1 + random.below(4) as u32;
        }
        let values = values_of_width(&mut random, ids.len(), round % 11);
        there_and_back(&ids, &values, POWERS[round as usize % 10]);
    }
}

#[test]
fn every_width_with_a_divisor() {
    let ids: Vec<u32> = (0..19).map(|i| 131_072 + 7 * i).collect();
    let mut random = Random::new(31);
    for width in 1..=64_u32 {
        let most = u64::MAX >> (64 - width);
        // The greatest power of two that leaves the width, and 3003 where it does.
        let odd = 3003_u64;
        let steps = [1 << (64 - width), if width <= 40 { odd } else { 1 }];
        for step in steps {
            let mut stored: Vec<u64> = ids.iter().map(|_| random.next() & most).collect();
            stored[3] = 0;
            stored[4] = most;
            stored[5] = 1.min(most);
            // The step is the divisor, of whatever the smallest value is a multiple.
            let low = if step == odd { -3001 } else { i64::MIN };
            let values: Vec<i64> = stored
                .iter()
                .map(|s| low.wrapping_add_unsigned(s.wrapping_mul(step)))
                .collect();
            let columns = there_and_back(&ids, &values, 0);
            // Document 01, "Header": g is number 7, from 0. Edition 2 has the next width of its list.
            let next = LUCENE_WIDTHS.into_iter().find(|&it| it >= width);
            for (column, width) in columns.iter().zip([width, next.unwrap(), width]) {
                let parts = crate::common::parts::Parts::of(column);
                assert_eq!((parts.width(), parts.numbers[7]), (width as usize, step));
            }
        }
    }
}

#[test]
fn two_extreme_values() {
    let extremes = [
        i64::MIN,
        i64::MIN + 1,
        i64::MIN / 2,
        -1,
        0,
        1,
        i64::MAX - 1,
        i64::MAX,
    ];
    for a in extremes {
        for b in extremes {
            for count in 2..9 {
                let ids: Vec<u32> = (0..count).map(|i| 131_072 + 9000 * i).collect();
                let mut values = vec![a; ids.len()];
                values[ids.len() / 2] = b;
                there_and_back(&ids, &values, POWERS[count as usize]);
            }
        }
    }
}

#[test]
fn up_to_five_faults_at_once() {
    let mut random = Random::new(32);
    for round in 0..640_usize {
        let faults = round % 32;
        let has = |fault: usize| faults >> fault & 1 == 1;
        let mut ids: Vec<u32> = vec![3, 9, 70_000, 70_001];
        ids.extend(few_ids(&mut random, 30).iter().map(|id| id + 80_000));
        let count = ids.len();
        let mut values = vec![5; count];
        let mut power = random.pick(&POWERS);
        let mut room = 1_000_000;
        if has(0) {
            values.resize(random.pick(&[count - 1, count + 1]), 5);
        }
        if has(1) {
            power = random.pick(&[1, 6, 16, 17, 64, u32::MAX]);
        }
        // The order is broken at one index alone; the range from one index on.
        let unordered = 1 + random.below(count - 1);
        let far = random.below(count);
        if has(3) {
            for (i, id) in ids[far..].iter_mut().enumerate() {
                *id = MAX_ID + 1 + i as u32;
            }
        }
        if has(2) {
            ids[unordered] = random.pick(&[ids[unordered - 1], ids[unordered - 1] / 2]);
        }
        if has(4) {
            room = random.below(23);
        }
        let result = same::write(&ids, &values, random.pick(&EDITIONS), power, room);
        // 1 to 4 and 6 in that order, each over the whole input before the next.
        let expected = match faults {
            _ if has(0) => Some(1),
            _ if has(1) => Some(2),
            _ if has(2) => Some(3),
            _ if has(3) => Some(4),
            _ if has(4) => Some(6),
            _ => None,
        };
        let number = result.as_ref().err().map(|refusal| refusal.number());
        assert_eq!(number, expected, "{round}");
        match result {
            Err(Refusal::Order { index }) => assert_eq!(index, unordered),
            Err(Refusal::Range { index }) => assert_eq!(index, far),
            _ => {}
        }
    }
}
