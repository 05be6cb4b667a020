//! The next candidate (document 02, [1]): block by block as id by id, and as the list has it.

use super::*;

/// The blocks from this one on are so few that each of their ids can be tried.
pub(super) const HIGH: u32 = 32_762;

/// Pairs in the last blocks that there can be, of every kind.
pub(super) fn high_pairs(random: &mut Random) -> BTreeMap<u32, i64> {
    let mut pairs = BTreeMap::new();
    for number in HIGH..=MAX_ID >> 16 {
        let (first, end) = match random.below(3) {
            0 => (0, 65_536),
            1 => (random.below(65_536) as u32, 65_536),
            _ => (0, 0),
        };
        let step = [1, 2, 13, 17, 9000][random.below(5) as usize];
        for place in (first..end).step_by(step) {
            pairs.insert(number << 16 | place, random.below(900) as i64);
        }
    }
    pairs
}

/// Changes a byte of a head, of the data, of the end block or of a jump entry.
pub(super) fn damage(random: &mut Random, bytes: &mut [u8]) {
    let column = open(bytes).expect("only the sections were changed");
    let (start, section) = (column.start as usize, column.id_bytes as usize);
    let blocks = section - 8 * column.jump_count as usize;
    let high_entries = section - 8 * 6;
    let at = match random.below(4) {
        0 => random.below(4) as usize,
        1 => random.below(blocks.min(600) as u64) as usize,
        2 => random.below(blocks as u64) as usize,
        _ => high_entries.max(blocks) + random.below(48.min(section - blocks) as u64) as usize,
    };
    bytes[start + at] ^= 1 << random.below(8);
}

#[test]
fn block_by_block_as_id_by_id() {
    let mut random = Random(5);
    let mut told = [0; 3];
    for round in 0..80 {
        let pairs = high_pairs(&mut random);
        if pairs.is_empty() {
            continue;
        }
        let edition = EDITIONS[round / 4 % 4];
        let mut column = plain_column(&pairs, edition, [0, 7, 9, 15][round % 4]);
        for _ in 0..6 {
            for _ in 0..4 {
                let offset = match random.below(3) {
                    0 => 0,
                    _ => random.below(u64::from(MAX_ID - (HIGH << 16))) as u32,
                };
                let (mut a, mut b) = (7, 7);
                let target = (HIGH << 16) + offset;
                let by_blocks = next(&mut a, &column, target);
                assert_eq!(by_blocks, next_by_each_id(&mut b, &column, target));
                assert_eq!(a, b);
                told[match by_blocks {
                    Ok(Some(_)) => 0,
                    Ok(None) => 1,
                    Err(refusal) => {
                        assert_eq!((refusal, a), (Refusal::BROKEN, 7));
                        2
                    }
                }] += 1;
            }
            damage(&mut random, &mut column);
        }
    }
    assert!(told.iter().all(|&count| count > 50), "{told:?}");
}

#[test]
fn as_the_list_has_it() {
    let mut random = Random(6);
    for round in 0..40 {
        let pairs = some_pairs(&mut random);
        let column = plain_column(&pairs, EDITIONS[round % 4], [0, 7, 9, 12, 15][round % 5]);
        let opened = open(&column).expect("a written column opens");
        let ids: Vec<u32> = pairs.keys().copied().collect();
        let values: Vec<i64> = pairs.values().copied().collect();
        let mut cursors = [random.below(1 << 20) as u32; 3];
        for _ in 0..300 {
            let target = match random.below(4) {
                0 => cursors[0],
                1 => random.below(1 << 32) as u32 >> random.below(20),
                _ => cursors[0].wrapping_add(random.below(3000) as u32),
            };
            let [a, b, c] = &mut cursors;
            let answer = next_listed(a, &ids, &values, target);
            assert_eq!(next(b, &column, target), answer, "{target}");
            assert_eq!(next_in(&opened, c, &column, target), answer, "{target}");
            assert_eq!(cursors, [cursors[0]; 3]);
        }
    }
}

#[test]
fn the_words_of_the_document() {
    // Ids 0, 2 and 7 with 150, 140 and 135, and the last id that there is, with 5.
    let pairs = BTreeMap::from([(0, 150), (2, 140), (7, 135), (MAX_ID, 5)]);
    let column = plain_column(&pairs, 1, 9);
    let found = |id, ordinal, value| Ok(Some(Candidate { id, ordinal, value }));
    let mut cursor = 0;
    for (target, answer, after) in [
        (0, found(0, 0, 150), 0),
        (1, found(2, 1, 140), 1),
        (1, found(2, 1, 140), 1),
        (7, found(7, 2, 135), 7),
        (6, Err(Refusal::BACK), 7),
        (8, found(MAX_ID, 3, 5), 8),
        (MAX_ID + 1, Err(Refusal::ID), 8),
        (7, Err(Refusal::BACK), 8),
        (MAX_ID, found(MAX_ID, 3, 5), MAX_ID),
    ] {
        assert_eq!(next(&mut cursor, &column, target), answer, "{target}");
        assert_eq!(cursor, after, "{target}");
    }
    // None is an answer too.
    let column = plain_column(&BTreeMap::from([(7, 135)]), 2, 9);
    let mut cursor = 0;
    assert_eq!(next(&mut cursor, &column, 8), Ok(None));
    assert_eq!(next(&mut cursor, &column, 7), Err(Refusal::BACK));
    assert_eq!(next(&mut cursor, &[], 7), Err(Refusal::BACK));
    assert_eq!(next(&mut cursor, &[], 8), Err(Refusal::short(0)));
    assert_eq!(cursor, 8);
}
