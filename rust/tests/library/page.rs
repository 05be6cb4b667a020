//! A page of ids in one call (document 02, [3]): each place is what the single look-up gives.

use crate::common::damage::{asked, large_columns, small_columns, Tally};
use crate::common::listed::listed;
use crate::common::pages::{look_up, look_up_exactly, Lists};
use crate::common::{
    few_ids, ids_of, same, values_of_width, Random, EDITIONS, POWERS, THREE_PAIRS,
};
use signalfern::{Column, Edition, Refusal, MAX_ID};
use signalfern_reference::Answer;

/// 5000 ids of block 0, which is dense, and three of block 1, sparse, with 7 for each; the entry of
/// block 1 leads past the section.
fn partly_broken() -> Vec<u8> {
    let mut ids: Vec<u32> = (0..5000).collect();
    ids.extend([65_536, 65_538, 65_543]);
    let mut bytes = same::write_exactly(&ids, &vec![7; ids.len()], Edition::Plain, 9);
    // Three entries at the end, as no value takes a byte: the third byte of the start in entry 1.
    let at = bytes.len() - 2 * 8 + 4 + 2;
    bytes[at] = 0xFF;
    bytes
}

#[test]
fn each_kind_of_answer_in_one_page() {
    let bytes = partly_broken();
    // Place 600 is in the second word of its stride; a clear bit costs one word; block 2 is missing.
    let ids = [600, 6000, 65_538, 131_072, MAX_ID + 1, 0, u32::MAX];
    let (lists, words) = look_up_exactly(&bytes, &ids);
    let expected = Lists {
        ordinals: vec![600, 0, 0, 0, 0, 0, 0],
        values: vec![7, 0, 0, 0, 0, 7, 0],
        kinds: vec![0, 1, 15, 1, 14, 0, 14],
    };
    assert_eq!((lists, words), (expected, 2 + 1 + 1));
}

#[test]
fn a_header_that_is_refused() {
    let long = [&THREE_PAIRS[..], &[0]].concat();
    let cases: [(&[u8], u8); 8] = [
        (&[], 7),
        (&THREE_PAIRS[..8], 7),
        (&[1, 0x80, 0], 8),
        (&[0, 3, 9], 9),
        (&[5, 3, 9], 9),
        (&[1, 3, 6, 16, 0, 2, 0, 1, 1], 10),
        (&THREE_PAIRS[..26], 11),
        (&long, 11),
    ];
    for (bytes, number) in cases {
        // Every place holds its number, but ids above the limit hold 14.
        let ids = [7, MAX_ID + 1, 7, 0, MAX_ID, u32::MAX];
        let (lists, words) = look_up_exactly(bytes, &ids);
        let n = number;
        assert_eq!(lists.kinds, [n, 14, n, n, n, 14], "{bytes:02X?}");
        assert_eq!((lists.ordinals, lists.values), (vec![0; 6], vec![0; 6]));
        assert_eq!(words, 0);
    }
}

#[test]
fn any_order_and_repeats() {
    // Of the first column of document 01 each id below 10 is asked for, one of them four times.
    let descending: Vec<u32> = (0..10).rev().collect();
    let (lists, _) = look_up_exactly(&THREE_PAIRS, &descending);
    assert_eq!(lists.values, [0, 0, 135, 0, 0, 0, 0, 140, 0, 150]);
    assert_eq!(lists.ordinals, [0, 0, 2, 0, 0, 0, 0, 1, 0, 0]);
    assert_eq!(lists.kinds, [1, 1, 0, 1, 1, 1, 1, 0, 1, 0]);
    let (lists, _) = look_up_exactly(&THREE_PAIRS, &[7, 7, 2, 7, 5, 5, 7]);
    assert_eq!(lists.values, [135, 135, 140, 135, 0, 0, 135]);
    assert_eq!(lists.kinds, [0, 0, 0, 0, 1, 1, 0]);
}

#[test]
fn a_list_that_is_too_short() {
    let ids = [7, 5, MAX_ID + 1];
    // Before a byte is read: whatever the bytes are.
    for bytes in [&THREE_PAIRS[..], &[], &[1, 0x80, 0], &THREE_PAIRS[..26]] {
        for rooms in [[2, 3, 3], [3, 2, 3], [3, 3, 2], [0, 3, 3], [9, 9, 0]] {
            let refused = look_up(bytes, &ids, rooms);
            assert_eq!(refused, Err(Refusal::Buffer { needed: 3 }), "{rooms:?}");
        }
    }
    let needed = 4096;
    let refused = look_up(&THREE_PAIRS, &[7; 4096], [4096, 4096, 4095]);
    assert_eq!(refused, Err(Refusal::Buffer { needed }));
}

#[test]
fn lists_longer_than_the_ids() {
    for rooms in [[3, 3, 3], [4, 3, 3], [3, 4, 3], [3, 3, 4], [1000, 40, 7]] {
        let (lists, _) = look_up(&THREE_PAIRS, &[7, 5, 0], rooms).unwrap();
        assert_eq!(lists.values, [135, 0, 150], "{rooms:?}");
    }
}

#[test]
fn no_ids() {
    for bytes in [&THREE_PAIRS[..], &[], &[1, 0x80, 0], &THREE_PAIRS[..26]] {
        for rooms in [[0, 0, 0], [1, 0, 5]] {
            let (lists, words) = look_up(bytes, &[], rooms).unwrap();
            assert_eq!((lists, words), (Lists::filled([0; 3]), 0));
        }
    }
}

#[test]
fn the_words_of_all() {
    // Without ranks a block is one stride: place 65535 is in its word 1024.
    let ids: Vec<u32> = (0..65_536).filter(|id| id % 2 == 1).collect();
    let bytes = same::write_exactly(&ids, &vec![3; ids.len()], Edition::Plain, 0);
    let (_, words) = look_up_exactly(&bytes, &[65_535; 5000]);
    assert_eq!(words, 5000 * 1024);
    // A refused place counts none, and one that is absent the one word that was looked at.
    let (_, words) = look_up_exactly(&bytes, &[65_535, 65_534, MAX_ID + 1, 1, 65_536]);
    assert_eq!(words, 1024 + 1 + 1);
}

/// Ids to ask for: listed ones, those beside them, any, and some above the limit.
fn some_ids(random: &mut Random, listed: &[u32], count: usize) -> Vec<u32> {
    let mut id = 0;
    (0..count)
        .map(|_| {
            id = match random.below(8) {
                0 => id,
                1 => random.next() as u32,
                2 => random.below(MAX_ID as usize + 1) as u32,
                3 if !listed.is_empty() => random.pick(listed).wrapping_add(1),
                4 => id.wrapping_add(random.below(200) as u32),
                5 => id.wrapping_sub(random.below(200) as u32),
                _ if listed.is_empty() => random.below(1 << 20) as u32,
                _ => random.pick(listed),
            };
            id
        })
        .collect()
}

/// On columns the answers are those of the list.
#[test]
fn as_the_list_has_it() {
    let mut random = Random::new(70);
    let kinds: [&[(u32, usize)]; 6] = [
        &[],
        &[(0, 1)],
        &[(0, 4095), (1, 4096), (2, 65_536)],
        &[(3, 30_000), (4, 10), (9, 65_535)],
        &[(0, 65_536), (1, 65_536), (300, 2000)],
        &[(32_765, 5000)],
    ];
    for (round, blocks) in kinds.iter().cycle().take(30).enumerate() {
        let ids = ids_of(&mut random, blocks);
        let width = random.below(65) as u32;
        let values = values_of_width(&mut random, ids.len(), width);
        let power = POWERS[round % 10];
        let bytes = same::write_exactly(&ids, &values, EDITIONS[round / 6 % 4], power);
        let count = random.pick(&[1, 2, 63, 999, 1000, 1001, 2500]);
        let mut page = some_ids(&mut random, &ids, count);
        match round % 3 {
            0 => page.sort_unstable(),
            1 => page.sort_unstable_by_key(|&id| !id),
            _ => {}
        }
        let (lists, words) = look_up_exactly(&bytes, &page);
        let mut sum = 0;
        for (i, &id) in page.iter().enumerate() {
            let place = (lists.kinds[i], lists.ordinals[i], lists.values[i]);
            let expected = match listed(&ids, &values, power, id) {
                _ if id > MAX_ID => (14, 0, 0),
                Answer::Absent { words, .. } => {
                    sum += words;
                    (1, 0, 0)
                }
                Answer::Found {
                    ordinal,
                    value,
                    words,
                    ..
                } => {
                    sum += words;
                    (0, ordinal, value)
                }
            };
            assert_eq!(place, expected, "id {id}");
        }
        assert_eq!(words, sum);
    }
}

#[test]
fn many_short_lists() {
    let mut random = Random::new(71);
    for _ in 0..1500 {
        let ids = few_ids(&mut random, 30);
        let width = random.below(65) as u32;
        let values = values_of_width(&mut random, ids.len(), width);
        let edition = random.pick(&EDITIONS);
        let bytes = same::write_exactly(&ids, &values, edition, random.pick(&POWERS));
        let count = random.below(40);
        let page = some_ids(&mut random, &ids, count);
        let mut room = || count + random.pick(&[0, 0, 1, 7]);
        look_up(&bytes, &page, [room(), room(), room()]).unwrap();
    }
}

#[test]
fn changed_bytes() {
    let mut random = Random::new(72);
    let mut tally = Tally::default();
    let mut columns = small_columns(&mut random);
    columns.extend(large_columns(&mut random));
    for column in &columns {
        let near = asked(column);
        for _ in 0..60 {
            let mut bytes = column.clone();
            for _ in 0..random.below(4) {
                let at = random.below(bytes.len().min(400));
                bytes[at] ^= 1 << random.below(8);
            }
            if random.one_in(20) {
                bytes.truncate(random.below(bytes.len()));
            }
            let page: Vec<u32> = (0..60).map(|_| random.pick(&near)).collect();
            let (lists, _) = look_up_exactly(&bytes, &page);
            for kind in lists.kinds {
                tally.0[usize::from(kind)] += 1;
            }
        }
    }
    tally.has(&[0, 1, 7, 8, 9, 10, 11, 14, 15]);
}

#[test]
fn by_an_opened_column() {
    let column = Column::open(&THREE_PAIRS).unwrap();
    let mut lists = Lists::filled([3, 4, 5]);
    let page = column
        .look_up_page(
            &[2, 3, MAX_ID + 1],
            &mut lists.ordinals,
            &mut lists.values,
            &mut lists.kinds,
        )
        .unwrap();
    assert_eq!(
        (page.kinds(), page.values()),
        (&[0, 1, 14][..], &[140, 0, 0][..])
    );
    let refused = column
        .look_up_page(&[2; 4], &mut [0; 4], &mut [0; 4], &mut [0; 3])
        .map(|page| page.len());
    assert_eq!(refused, Err(Refusal::Buffer { needed: 4 }));
}
