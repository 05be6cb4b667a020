//! Lists of pairs written, checked, read back and looked up: the library beside the reference, and
//! beside the list itself.

use std::collections::BTreeSet;

use crate::common::listed::listed;
use crate::common::{
    block_ids, few_ids, ids_of, same, values_of_width, Random, BLOCK_COUNTS, EDITIONS,
    LUCENE_WIDTHS, POWERS,
};
use signalfern::{Column, Edition, Refusal, MAX_ID};

/// Writes the pairs in each edition and reads them back with every call; gives the columns.
fn there_and_back(ids: &[u32], values: &[i64], power: u32) -> [Vec<u8>; 4] {
    EDITIONS.map(|edition| written(ids, values, edition, power))
}

fn written(ids: &[u32], values: &[i64], edition: Edition, power: u32) -> Vec<u8> {
    let column = same::write_exactly(ids, values, edition, power);
    let count = ids.len();
    // Room to spare changes nothing.
    let spare = same::write(ids, values, edition, power, column.len() + 13);
    assert!(spare.as_ref() == Ok(&column));
    assert_eq!(same::check(&column), Ok(count as u64));
    for (ids_len, values_len) in [(count, count), (count + 3, count + 1)] {
        let (read_ids, read_values) = same::read(&column, ids_len, values_len).unwrap();
        assert!(read_ids == ids && read_values == values);
    }
    if count > 0 {
        for (ids_len, values_len) in [(count - 1, count), (count, count - 1), (0, 0)] {
            let refused = same::read(&column, ids_len, values_len);
            assert_eq!(refused, Err(Refusal::Buffer { needed: count }));
        }
    }
    column
}

/// Each edition gives the list's answers.
fn look_up_all(columns: &[Vec<u8>], ids: &[u32], values: &[i64], power: u32, asked: &[u32]) {
    for column in columns {
        let header = same::open(column).unwrap().header();
        for &id in asked {
            let answer = Ok(listed(ids, values, power, id));
            assert_eq!(same::look_up(column, id), answer, "id {id}");
            assert_eq!(same::look_up_in(header, column, id), answer, "id {id}");
        }
    }
}

/// Ids at and around the borders of words, strides and blocks, and a few more.
fn border_ids(random: &mut Random, numbers: &[u32]) -> Vec<u32> {
    let mut asked = vec![0, 1, MAX_ID - 1, MAX_ID];
    for number in numbers
        .iter()
        .flat_map(|&n| [n.saturating_sub(1), n, (n + 1).min(32_765)])
    {
        let places = [0, 1, 62, 63, 64, 65, 65_470, 65_471, 65_472, 65_534, 65_535];
        asked.extend(places.map(|place| (number << 16) | place));
        for power in POWERS {
            let border = (random.below(65_536) as u32 >> power) << power;
            asked.extend(
                [border, border + 1, border | 63, border.saturating_sub(1)]
                    .map(|place| (number << 16) | (place % 65_536)),
            );
        }
        asked.extend((0..10).map(|_| (number << 16) | random.below(65_536) as u32));
    }
    asked
}

#[test]
fn every_block_kind_at_every_power() {
    let mut random = Random::new(10);
    for (round, &count) in BLOCK_COUNTS.iter().enumerate() {
        for number in [0, 1, 40] {
            let ids = block_ids(&mut random, number, count);
            let width = random.below(20) as u32;
            let values = values_of_width(&mut random, count, width);
            // Ranks matter to dense blocks alone: elsewhere one power stands for all.
            let dense = (4096..65_536).contains(&count);
            let powers = if dense {
                &POWERS[..]
            } else {
                &POWERS[round % 10..][..1]
            };
            for &power in powers {
                let columns = there_and_back(&ids, &values, power);
                let asked = border_ids(&mut random, &[number]);
                look_up_all(&columns, &ids, &values, power, &asked);
            }
        }
    }
}

#[test]
fn missing_blocks_and_jumps() {
    let mut random = Random::new(11);
    for blocks in [
        &[(0, 3), (1, 1)][..],
        &[(1, 1)],
        &[(2, 5), (3, 65_536), (9, 4096)],
        &[(0, 65_536), (1, 65_536), (2, 65_536)],
        &[(5, 4095), (6, 4096), (100, 2)],
        &[(0, 1), (32_765, 1)],
        &[(32_764, 5000), (32_765, 65_535)],
        &[(700, 10), (1000, 65_536), (1001, 20_000)],
    ] {
        let ids = ids_of(&mut random, blocks);
        let values = values_of_width(&mut random, ids.len(), 9);
        let numbers: Vec<u32> = blocks.iter().map(|block| block.0).collect();
        for power in [0, random.pick(&POWERS), 9] {
            let columns = there_and_back(&ids, &values, power);
            let asked = border_ids(&mut random, &numbers);
            look_up_all(&columns, &ids, &values, power, &asked);
        }
    }
}

#[test]
fn every_width() {
    let mut random = Random::new(12);
    let mut seen = BTreeSet::new();
    for width in 0..=64 {
        // Any count modulo 8 leaves its own spare bits.
        for count in (0..20).chain([63, 64, 65, 200]) {
            let ids: Vec<u32> = (0..count as u32).map(|i| i * 3).collect();
            let mut values = values_of_width(&mut random, count, width);
            there_and_back(&ids, &values, 9);
            // The width itself, from the smallest value there is and to the greatest.
            let most = u64::MAX.checked_shr(64 - width).unwrap_or(0);
            for low in [i64::MIN, i64::MAX.wrapping_sub_unsigned(most), 1] {
                let Some(high) = low.checked_add_unsigned(most) else {
                    continue;
                };
                values.fill_with(|| low.wrapping_add_unsigned(random.next() & most));
                values.splice(..2.min(count), [high, low].into_iter().take(2.min(count)));
                let columns = there_and_back(&ids, &values, 9);
                let [opened, packed, runs, _] =
                    columns.each_ref().map(|it| Column::open(it).unwrap());
                assert_eq!(packed.divisor(), opened.divisor());
                assert_eq!(runs.divisor(), opened.divisor());
                if count > 1 && opened.divisor() == 1 {
                    assert_eq!(opened.width(), u64::from(width), "{low} {high}");
                    let next = LUCENE_WIDTHS.into_iter().find(|&it| it >= width);
                    let next = if width == 0 { 0 } else { next.unwrap() };
                    assert_eq!(packed.width(), u64::from(next), "{low} {high}");
                    seen.insert(width);
                }
                let asked: Vec<u32> = (0..3 * count as u32 + 2).collect();
                look_up_all(&columns, &ids, &values, 9, &asked);
            }
        }
    }
    assert_eq!(seen.len(), 65);
}

#[test]
fn extreme_values() {
    let extremes = [
        i64::MIN,
        i64::MIN + 1,
        -2,
        -1,
        0,
        1,
        2,
        i64::MAX - 1,
        i64::MAX,
    ];
    for a in extremes {
        for b in extremes {
            for c in extremes {
                let columns = there_and_back(&[1, 5, 70_000], &[a, b, c], 0);
                look_up_all(&columns, &[1, 5, 70_000], &[a, b, c], 0, &[1, 5, 70_000]);
            }
        }
    }
}

#[test]
fn many_short_lists() {
    let mut random = Random::new(13);
    for _ in 0..3000 {
        let ids = few_ids(&mut random, 40);
        let width = random.below(65) as u32;
        let values = values_of_width(&mut random, ids.len(), width);
        let power = random.pick(&POWERS);
        let columns = there_and_back(&ids, &values, power);
        let mut asked = ids.clone();
        asked.extend(
            ids.iter()
                .flat_map(|id| [id + 1, id.saturating_sub(1), id ^ 65_536]),
        );
        look_up_all(&columns, &ids, &values, power, &asked);
    }
}

#[test]
fn lists_that_are_refused() {
    let mut random = Random::new(14);
    let mut refused = 0;
    for _ in 0..5000 {
        let mut ids = few_ids(&mut random, 30);
        let mut values = values_of_width(&mut random, ids.len(), 5);
        for _ in 0..random.below(3) {
            let at = random.below(ids.len() + 1);
            match random.below(5) {
                0 => values.push(0),
                1 => ids.insert(at, random.pick(&[0, 5, 70_000])),
                2 => ids.push(random.pick(&[MAX_ID, MAX_ID + 1, u32::MAX])),
                3 if at < ids.len() => ids[at] = random.pick(&[0, MAX_ID + 7]),
                _ => values.resize(ids.len(), 1),
            }
        }
        if random.one_in(2) {
            values.resize(ids.len(), 1);
        }
        let power = random.pick(&[0, 9, 15, 7, 6, 16, 1, u32::MAX]);
        let room = random.pick(&[0, 1, 20, 60, 300, 1000]);
        let edition = random.pick(&EDITIONS);
        refused += usize::from(same::write(&ids, &values, edition, power, room).is_err());
    }
    assert!((1000..5000).contains(&refused), "{refused}");
}
