//! Edition 4, a table of few distinct scores (document 02, [12]): columns of so many distinct values, of every
//! shape, by every call beside the reference. Tables and headers that say wrong: `tables_damage`; plans: `plans`.

use crate::common::damage::Tally;
use crate::common::parts::{self, Parts};
use crate::common::tables::{self, distinct, far_apart, some_of, value, width};
use crate::common::{ids_of, layers, plans, same, Random, POWERS};
use signalfern::{Checked, Column, Edition, Refusal};
use signalfern_reference::Answer;

/// The column of these values by the planner's table, at the ids 0, 3, 6, ...
fn column(values: &[i64]) -> Vec<u8> {
    let (column, table) = plans::planned(&tables::ids(values.len()), values, 9);
    assert_eq!(table, distinct(values));
    column
}

#[test]
fn so_many_distinct_values() {
    for entries in [2, 3, 4, 5, 8, 9, 16, 17, 128, 129, 255, 256] {
        for count in [entries.max(9), 500, 1001] {
            let mut random = Random::new(count as u64);
            let mut values = far_apart(entries, entries);
            values.extend(some_of(&mut random, &values, count - entries));
            let [plain, lengths] = [Edition::Plain, Edition::Table].map(|edition| {
                let ids = tables::ids(count);
                signalfern::write_to_vec(&ids, &values, edition, 9)
                    .unwrap()
                    .len()
            });
            if lengths >= plain {
                // So few that a table is not worth its bytes.
                assert!(count < 2 * entries, "{entries} {count}");
                continue;
            }
            let column = column(&values);
            let found = Parts::of(&column);
            assert_eq!(found.numbers[parts::EDITION], 4);
            assert_eq!(found.numbers[parts::WIDTH], width(entries) as u64);
            assert_eq!(found.numbers[parts::LEAST], 0);
            assert_eq!(found.numbers[parts::STEP], entries as u64);
            let codes = (count * width(entries)).div_ceil(8);
            assert_eq!(found.values.len(), 8 * entries + codes);
            by_every_call(&column, &values);
        }
    }
    // One, and one more than 256: plain, and the writer's edition is 1.
    for (entries, count) in [(1, 0), (1, 3), (1, 3000), (257, 3000)] {
        let values = far_apart(entries, count);
        let (plain, table) = plans::planned(&tables::ids(count), &values, 9);
        assert_eq!((plain[0], table.len()), (1, 0));
        by_every_call(&plain, &values);
    }
}

/// Each call answers as the list does.
fn by_every_call(column: &[u8], values: &[i64]) {
    for (ordinal, &listed) in values.iter().enumerate() {
        assert_eq!(value(column, ordinal), Ok(listed));
    }
    let last = values.len().saturating_sub(1);
    let ordinals = [0, 1, 2, 7, 8, 9, values.len() / 2, last].into_iter();
    let mut asked: Vec<u32> = ordinals.map(|o| 3 * o as u32).collect();
    asked.extend([1, 2, 3 * values.len() as u32]);
    Tally::default().try_all(column, &asked);
    let checked = Checked::new(column).unwrap();
    let pairs = || {
        tables::ids(values.len())
            .into_iter()
            .zip(values.iter().copied())
    };
    assert!(checked.iter().eq(pairs()));
    for &from in &asked {
        let rest = pairs().filter(|&(id, _)| id >= from).take(40);
        assert!(checked.iter_from(from).take(40).eq(rest), "{from}");
        let next = same::next(column, from.max(7)).unwrap();
        let expected = pairs().find(|&(id, _)| id >= from.max(7));
        assert_eq!(next.map(|it| (it.id, it.value)), expected);
    }
    // There is no directory to search by.
    assert_eq!(same::first_between(column, 0, 9), Err(Refusal::Edition));
}

/// Each code of each width, from every place in a byte: the entry at it, or BROKEN where there is none.
#[test]
fn each_code() {
    for entries in [
        2, 3, 4, 5, 7, 8, 9, 15, 16, 17, 31, 33, 64, 65, 127, 129, 200, 255, 256,
    ] {
        let table: Vec<i64> = distinct(&far_apart(entries, entries));
        let width = width(entries);
        let sound = tables::parts(&far_apart(entries, 17));
        for turn in 0..1 << width {
            // Any codes beside it.
            let codes: Vec<u64> = (0..17).map(|i| (turn + 37 * i) % (1 << width)).collect();
            let bytes = tables::with_codes(sound.clone(), &table, &codes).bytes();
            for (ordinal, &code) in codes.iter().enumerate() {
                let entry = table.get(code as usize).copied();
                let told = value(&bytes, ordinal);
                assert_eq!(told, entry.ok_or(Refusal::Broken), "{entries} {code}");
            }
        }
    }
}

/// Blocks of every kind, missing ones and ranks, with a table of four.
#[test]
fn in_blocks_of_every_kind() {
    let mut random = Random::new(96);
    for (round, blocks) in [
        &[(0, 1000)][..],
        &[(0, 4096), (2, 65_536), (3, 7)],
        &[(1, 65_535), (9, 4095)],
        &[(32_764, 5000), (32_765, 65_536)],
    ]
    .into_iter()
    .enumerate()
    {
        for power in [0, POWERS[1 + 2 * round], 15] {
            let ids = ids_of(&mut random, blocks);
            let values = some_of(&mut random, &[-5, 0, 1 << 33, i64::MAX], ids.len());
            let (column, table) = plans::planned(&ids, &values, power);
            assert_eq!(table.len(), 4);
            let mut asked = vec![0, 65_536];
            asked.extend((0..40).map(|_| random.pick(&ids)));
            Tally::default().try_all(&column, &asked);
            for id in asked {
                let expected = ids.binary_search(&id).ok();
                let found = match same::look_up(&column, id).unwrap() {
                    Answer::Found { ordinal, value, .. } => Some((ordinal, value)),
                    Answer::Absent { .. } => None,
                };
                assert_eq!(found, expected.map(|i| (i as u64, values[i])));
            }
        }
    }
}

/// Both columns of a correction may be of any edition, and the part that is handed back is the whole section,
/// with its table.
#[test]
fn in_layers() {
    let (ids, values) = ([0, 2, 7, 9], [1, i64::MIN, 0, 1]);
    let table = same::write_exactly(&ids, &values, Edition::Table, 9);
    let plain = same::write_exactly(&[2, 4], &[0, 255], Edition::Plain, 9);
    assert_eq!(Column::open(&table).unwrap().edition(), Edition::Table);
    for id in 0..11 {
        for (machine, correction) in [(&table, &plain), (&plain, &table), (&table, &table)] {
            layers::look_up(machine, correction, id).unwrap();
        }
    }
    let part = signalfern::layered_values(&table, &plain, 7);
    assert!(std::ptr::eq(part, &table[table.len() - 25..]));
}

/// What a header says of edition 4, by the package's methods.
#[test]
fn opened() {
    let bytes = same::write_exactly(&[0, 2, 7, 9], &[1, i64::MIN, 0, 1], Edition::Table, 9);
    let column = same::open(&bytes).unwrap();
    assert_eq!((column.edition(), column.width()), (Edition::Table, 2));
    assert_eq!((column.smallest(), column.divisor()), (0, 3));
    assert_eq!((column.value_bytes(), column.start()), (25, 9));
}
