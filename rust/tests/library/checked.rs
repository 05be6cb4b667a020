//! A checked column asked and walked over: beside the list, the proved reading and the reference.

use std::collections::BTreeMap;
use std::ops::Bound::{Excluded, Included, Unbounded};

use crate::common::parts::Parts;
use crate::common::{
    block_ids, few_ids, ids_of, same, values_of_width, Random, BLOCK_COUNTS, EDITIONS, POWERS,
};
use signalfern::{Checked, Edition, Pairs, Refusal, MAX_COUNT, MAX_ID};

/// A column of the list, and what is asked of it.
struct Listed {
    ids: Vec<u32>,
    values: Vec<i64>,
    bytes: Vec<u8>,
}

impl Listed {
    fn new(ids: Vec<u32>, values: Vec<i64>, edition: Edition, power: u32) -> Self {
        let bytes = signalfern::write_to_vec(&ids, &values, edition, power).unwrap();
        Self { ids, values, bytes }
    }

    /// The pairs from an index on.
    fn pairs(&self, index: usize) -> impl Iterator<Item = (u32, i64)> + Clone + '_ {
        let ids = self.ids[index..].iter().copied();
        ids.zip(self.values[index..].iter().copied())
    }

    /// Walks over the whole, and from each id to at most `most` pairs.
    #[track_caller]
    fn try_all(&self, asked: impl IntoIterator<Item = u32>, most: usize) {
        let column = same::walk(&self.bytes).unwrap();
        assert!(column.iter().eq(self.pairs(0)));
        for id in asked {
            let index = self.ids.partition_point(|&listed| listed < id);
            let walk = column.iter_from(id);
            assert_eq!(walk.len(), self.ids.len() - index, "from {id}");
            assert!(
                walk.take(most).eq(self.pairs(index).take(most)),
                "from {id}"
            );
            let at = self.ids.get(index).map(|&id| (id, self.values[index]));
            assert_eq!(column.nth(index), at, "ordinal {index}");
            let value = (self.ids.get(index) == Some(&id)).then(|| self.values[index]);
            assert_eq!(column.get(id), value, "id {id}");
            assert_eq!(column.contains(id), value.is_some(), "id {id}");
        }
    }
}

/// Ids at the borders of words, strides and blocks near these blocks, and the limits.
fn border_ids(random: &mut Random, numbers: &[u32]) -> Vec<u32> {
    let mut asked = vec![0, 1, MAX_ID, MAX_ID + 1, u32::MAX];
    for &number in numbers {
        let base = number << 16;
        let places = [0, 1, 62, 63, 64, 65, 65_471, 65_472, 65_473, 65_534, 65_535];
        asked.extend(places.map(|place| base | place));
        for power in POWERS {
            let border = base | ((random.below(65_536) as u32 >> power) << power);
            asked.extend([border, border | 1, border | 63, border.saturating_sub(1)]);
        }
        asked.extend([base.saturating_sub(1), base + 65_536, base + 65_537]);
        asked.extend((0..10).map(|_| base | random.below(65_536) as u32));
    }
    asked
}

#[test]
fn every_block_kind_at_every_power() {
    let mut random = Random::new(40);
    for count in BLOCK_COUNTS {
        for number in [0, 1, 40] {
            for power in POWERS {
                let ids = block_ids(&mut random, number, count);
                let width = random.below(20) as u32;
                let values = values_of_width(&mut random, count, width);
                let asked = border_ids(&mut random, &[number]);
                let edition = random.pick(&EDITIONS);
                Listed::new(ids, values, edition, power).try_all(asked, 300);
            }
        }
    }
}

#[test]
fn missing_blocks_and_jumps() {
    let mut random = Random::new(41);
    for blocks in [
        &[(0, 3), (1, 1)][..],
        &[(1, 1)],
        &[(2, 5), (3, 65_536), (9, 4096)],
        &[(0, 65_536), (1, 65_536), (2, 65_536)],
        &[(5, 4095), (6, 4096), (100, 2)],
        &[(0, 1), (32_765, 1)],
        &[(32_764, 5000), (32_765, 65_535)],
        &[(700, 10), (1000, 65_536), (1001, 20_000)],
    ] {
        let numbers: Vec<u32> = blocks.iter().map(|block| block.0).collect();
        for power in POWERS {
            let ids = ids_of(&mut random, blocks);
            let values = values_of_width(&mut random, ids.len(), 9);
            let mut asked = border_ids(&mut random, &numbers);
            asked.extend(numbers.iter().flat_map(|number| {
                [number.saturating_sub(1), number + 1, number + 2].map(|number| number << 16 | 77)
            }));
            let edition = random.pick(&EDITIONS);
            Listed::new(ids, values, edition, power).try_all(asked, 70_000);
        }
    }
}

#[test]
fn every_width() {
    let mut random = Random::new(42);
    for width in 0..=64 {
        // Any count modulo 8 leaves its own spare bits, and the last numbers reach the end.
        for count in (0..20).chain([63, 64, 65, 200]) {
            let ids: Vec<u32> = (0..count as u32).map(|i| i * 3).collect();
            let most = u64::MAX.checked_shr(64 - width).unwrap_or(0);
            for low in [i64::MIN, i64::MAX.wrapping_sub_unsigned(most), -1] {
                let Some(high) = low.checked_add_unsigned(most) else {
                    continue;
                };
                let mut values = vec![low; count];
                values.fill_with(|| low.wrapping_add_unsigned(random.next() & most));
                values.splice(..2.min(count), [high, low].into_iter().take(2.min(count)));
                let asked = 0..3 * count as u32 + 2;
                for edition in EDITIONS {
                    let listed = Listed::new(ids.clone(), values.clone(), edition, 9);
                    listed.try_all(asked.clone(), usize::MAX);
                }
            }
        }
    }
}

#[test]
fn many_short_lists() {
    let mut random = Random::new(43);
    for _ in 0..2000 {
        let ids = few_ids(&mut random, 40);
        let width = random.below(65) as u32;
        let values = values_of_width(&mut random, ids.len(), width);
        let asked: Vec<u32> = (ids.iter())
            .flat_map(|id| [*id, id + 1, id.saturating_sub(1), id ^ 65_536])
            .collect();
        let edition = random.pick(&EDITIONS);
        let listed = Listed::new(ids, values, edition, random.pick(&POWERS));
        listed.try_all(asked, usize::MAX);
    }
}

/// By any bounds, as a map has them; but where the start is above the end there is none.
#[test]
fn ranges_of_ids() {
    let mut random = Random::new(44);
    for round in 0..300 {
        let ids = match round % 3 {
            0 => few_ids(&mut random, 300),
            1 => block_ids(&mut random, 1, 4500),
            _ => ids_of(&mut random, &[(0, 300), (1, 5000), (3, 65_536), (9, 2)]),
        };
        let values = values_of_width(&mut random, ids.len(), 9);
        let (edition, power) = (random.pick(&EDITIONS), random.pick(&POWERS));
        let listed = Listed::new(ids, values, edition, power);
        let column = Checked::new(&listed.bytes).unwrap();
        let map: BTreeMap<u32, i64> = listed.pairs(0).collect();
        assert_eq!(
            column.first(),
            map.first_key_value().map(|(&id, &it)| (id, it))
        );
        assert_eq!(
            column.last(),
            map.last_key_value().map(|(&id, &it)| (id, it))
        );
        for _ in 0..10 {
            let mut any = || match random.below(5) {
                0 => random.below(700_000) as u32,
                1 => random.pick(&[0, 1, 65_535, 65_536, 131_072, MAX_ID, MAX_ID + 1, u32::MAX]),
                _ if listed.ids.is_empty() => 7,
                _ => random.pick(&listed.ids) + random.below(2) as u32,
            };
            let (a, b) = (any(), any());
            let (low, high) = (a.min(b), a.max(b));
            let bounds = [
                (Included(low), Excluded(high)),
                (Included(low), Included(high)),
                (Unbounded, Excluded(high)),
                (Unbounded, Included(high)),
                (Included(low), Unbounded),
                (Unbounded, Unbounded),
            ];
            for bounds in bounds {
                let walk = column.range(bounds);
                let expected = map.range(bounds).map(|(&id, &value)| (id, value));
                assert_eq!(walk.len(), expected.clone().count(), "{bounds:?}");
                assert_eq!(
                    walk.clone().last(),
                    expected.clone().next_back(),
                    "{bounds:?}"
                );
                assert!(walk.eq(expected), "{bounds:?}");
            }
            if low < high {
                assert_eq!(column.range(high..low).next(), None);
                let between = map.range((Excluded(low), Excluded(high)));
                let walk = column.range((Excluded(low), Excluded(high)));
                assert!(walk.eq(between.map(|(&id, &value)| (id, value))));
            }
        }
    }
    let listed = Listed::new(vec![MAX_ID], vec![8], Edition::Plain, 9);
    let column = Checked::new(&listed.bytes).unwrap();
    assert!(column.range(MAX_ID..=u32::MAX).eq([(MAX_ID, 8)]));
    assert!(column.range((Excluded(u32::MAX), Unbounded)).eq([]));
    assert!(column.range(..MAX_ID).eq([]));
}

/// Pairs left out on the way: by `nth`, and by what goes by it.
#[test]
fn pairs_are_left_out_by_their_ordinals() {
    let mut random = Random::new(45);
    for round in 0..60 {
        let ids = match round % 3 {
            0 => few_ids(&mut random, 1000),
            1 => block_ids(&mut random, 0, 60_000),
            _ => ids_of(&mut random, &[(2, 4000), (3, 5000), (4, 65_536), (900, 2)]),
        };
        let values = values_of_width(&mut random, ids.len(), 9);
        let (edition, power) = (random.pick(&EDITIONS), random.pick(&POWERS));
        let listed = Listed::new(ids, values, edition, power);
        let column = Checked::new(&listed.bytes).unwrap();
        let count = listed.ids.len();
        for _ in 0..20 {
            let from = random.below(700_000) as u32;
            let index = listed.ids.partition_point(|&id| id < from);
            let (mut walk, mut list) = (column.iter_from(from), listed.pairs(index));
            loop {
                let n = match random.below(4) {
                    0 => random.below(count + 2),
                    1 => random.pick(&[0, 1, 3, 4, 5, 11, 12, 63, 64, 255, 256, 257, 1023, 4095, 4096]),
                    _ => random.below(40),
                };
                let pair = list.nth(n);
                assert_eq!(walk.nth(n), pair, "{n} on");
                assert_eq!(walk.len(), list.size_hint().0);
                if pair.is_none() {
                    break;
                }
                assert_eq!(walk.clone().next(), list.clone().next());
            }
            assert_eq!((walk.next(), walk.nth(9), walk.last()), (None, None, None));
            let (skip, step) = (random.below(count + 9), 1 + random.below(2000));
            let walk = column.iter_from(from).skip(skip).step_by(step);
            assert!(walk.eq(listed.pairs(index).skip(skip).step_by(step)));
        }
    }
}

/// The walk reads 4 pairs, then 8, and so on up to 4,096 with a call: whatever is asked where a reading ends is
/// as the list has it, and a walk goes on from its copy.
#[test]
fn readings_that_grow() {
    let mut random = Random::new(46);
    let mut borders = vec![0];
    while borders.len() < 12 {
        borders.push(2 * borders[borders.len() - 1] + 4);
    }
    borders.extend([8188 + 4096, 8188 + 8192]);
    for blocks in [
        &[(0, 1), (1, 5), (2, 6), (3, 7), (4, 20), (5, 4095), (9, 20_000)][..],
        &[(7, 4096), (8, 65_536)],
        &[(0, 9000), (1, 4096), (2, 4097), (3, 4095)],
    ] {
        for (edition, power) in EDITIONS.into_iter().flat_map(|it| POWERS.map(|p| (it, p))) {
            let ids = ids_of(&mut random, blocks);
            let values = values_of_width(&mut random, ids.len(), 7);
            let listed = Listed::new(ids, values, edition, power);
            let column = same::walk(&listed.bytes).unwrap();
            let count = listed.ids.len();
            let mut walk = column.iter();
            let mut taken = 0;
            for &border in borders.iter().filter(|&&border| border + 2 < count) {
                for at in [border.saturating_sub(1), border, border + 1] {
                    while taken < at {
                        assert_eq!(walk.next(), listed.pairs(taken).next(), "pair {taken}");
                        taken += 1;
                    }
                    assert_eq!(walk.len(), count - taken);
                    let mut copy = walk.clone();
                    assert_eq!(copy.next(), listed.pairs(taken).next());
                    assert_eq!(copy.nth(9), listed.pairs(taken + 1).nth(9));
                    let end = listed.ids[taken];
                    assert!(column.range(..end).eq(listed.pairs(0).take(taken)));
                    assert!(column.range(..=end).eq(listed.pairs(0).take(taken + 1)));
                    assert!(column.iter_from(end).take(30).eq(listed.pairs(taken).take(30)));
                }
            }
            assert!(walk.eq(listed.pairs(taken)));
        }
    }
}

#[test]
fn the_walk_tells_what_is_left() {
    let listed = Listed::new(vec![1, 70_000, 70_001], vec![5, -5, 0], Edition::Lucene, 9);
    let column = Checked::new(&listed.bytes).unwrap();
    let mut walk: Pairs = column.iter();
    for left in [3, 2, 1] {
        assert_eq!((walk.len(), walk.clone().count()), (left, left));
        assert_eq!(walk.size_hint(), (left, Some(left)));
        assert!(walk.clone().eq(listed.pairs(3 - left)));
        assert!(walk.next().is_some());
    }
    assert_eq!((walk.len(), walk.next(), walk.next()), (0, None, None));
    assert_eq!((&column).into_iter().count(), column.into_iter().count());
    assert_eq!((column.len(), column.is_empty()), (3, false));
}

#[test]
fn every_id_that_there_is() {
    // 393 KB, and no memory for two thousand million pairs.
    let bytes = Parts::full_blocks(32_766).bytes();
    let column = Checked::new(&bytes).unwrap();
    assert_eq!(column.len() as u64, MAX_COUNT);
    assert_eq!(column.iter().len() as u64, MAX_COUNT);
    for first in [0, 65_530, 1 << 30, MAX_ID - 9] {
        let walk = column.iter_from(first);
        assert_eq!(walk.len() as u64, MAX_COUNT - u64::from(first));
        assert!(walk.take(10).eq((first..first + 10).map(|id| (id, 42))));
    }
    assert_eq!(column.iter_from(MAX_ID).last(), Some((MAX_ID, 42)));
    // Straight to the pair: by a walk, each of these would take seconds.
    for ordinal in [0, 65_535, 65_536, 1 << 30, MAX_ID] {
        assert_eq!(column.nth(ordinal as usize), Some((ordinal, 42)));
        let mut walk = column.iter();
        assert_eq!(walk.nth(ordinal as usize), Some((ordinal, 42)));
        let after = (ordinal < MAX_ID).then_some((ordinal + 1, 42));
        assert_eq!(walk.next(), after);
    }
    assert_eq!(
        (column.first(), column.last()),
        (Some((0, 42)), Some((MAX_ID, 42)))
    );
    assert_eq!(column.nth(MAX_ID as usize + 1), None);
    assert_eq!(column.iter().step_by(1 << 29).count(), 4);
    assert_eq!(column.iter_from(MAX_ID + 1).next(), None);
}

#[test]
fn damage_makes_no_checked_column() {
    let listed = Listed::new(vec![0, 2, 7], vec![150, 140, 135], Edition::Plain, 9);
    for (at, bits, refusal) in [
        (0, 8, Refusal::Edition),
        // Of edition 2: D0 has the bits 00 00 10 low first, and 11 in the spare ones.
        (0, 3, Refusal::Damaged),
        // Of edition 3, whose header has no width, and of edition 4, which has no smallest value.
        (0, 2, Refusal::Header),
        (0, 5, Refusal::Header),
        (2, 8, Refusal::Header),
        (3, 1, Refusal::Length),
        (14, 2, Refusal::Damaged),
        (26, 1, Refusal::Damaged),
        // Stored 2, 0, 2 for 3, 1, 0.
        (26, 0x58, Refusal::Damaged),
    ] {
        let mut bytes = listed.bytes.clone();
        bytes[at] ^= bits;
        assert_eq!(Checked::new(&bytes).unwrap_err(), refusal, "byte {at}");
    }
}

#[test]
fn another_column_is_no_damage() {
    // The format has no checksum: this bit makes 145 of 150, and the column of another list.
    let mut listed = Listed::new(vec![0, 2, 7], vec![150, 140, 135], Edition::Plain, 9);
    listed.bytes[26] ^= 0x40;
    listed.values[0] = 145;
    listed.try_all([0, 2, 7], 3);
    // And this one divisor 7 of divisor 5: stored are 2, 1, 0.
    listed.bytes[8] ^= 2;
    listed.values = vec![149, 142, 135];
    listed.try_all([0, 2, 7], 3);
}
