//! Plans (document 02, [12]): the small check at each of its borders, the planner, and the writer that takes a
//! plan, each beside the reference.

use crate::common::parts::{self, Parts};
use crate::common::tables::{self, distinct, far_apart, some_of};
use crate::common::{few_ids, plans, same, values_of_width, Random, POWERS};
use signalfern::{Column, Edition, Refusal, MAX_ID, MAX_TABLE};

/// Writes the values at the ids 0, 3, 6, ... by a plan.
#[track_caller]
fn by_plan(values: &[i64], table: &[i64]) -> Result<Vec<u8>, Refusal> {
    plans::write_exactly(&tables::ids(values.len()), values, table, 9)
}

/// The lengths of the column with a table of all distinct values, and of edition 1's.
fn lengths(values: &[i64]) -> [usize; 2] {
    let ids = tables::ids(values.len());
    let plain = signalfern::write_to_vec(&ids, values, Edition::Plain, 9).unwrap();
    [tables::parts(values).bytes().len(), plain.len()]
}

/// "Values 5, 6, 5, 6, 3000 have codes 0, 1, 0, 1, 2 at width 2, but that column is longer: rejected."
#[test]
fn the_case_of_the_request() {
    let values = [5, 6, 5, 6, 3000];
    let parts = tables::parts(&values);
    assert_eq!(parts.stored(), [0, 1, 0, 1, 2]);
    assert_eq!(parts.numbers[parts::WIDTH], 2);
    let [table, plain] = lengths(&values);
    assert!(table > plain);
    assert_eq!(by_plan(&values, &[5, 6, 3000]), Err(Refusal::Plan));
    let (column, table) = plans::planned(&tables::ids(5), &values, 9);
    assert_eq!(table, []);
    assert_eq!(Column::open(&column).unwrap().edition(), Edition::Plain);
    // Its bytes answer, and are no column.
    let bytes = parts.bytes();
    for (ordinal, value) in values.into_iter().enumerate() {
        assert_eq!(tables::value(&bytes, ordinal), Ok(value));
    }
    assert_eq!(same::check(&bytes), Err(Refusal::Damaged));
    assert_eq!(same::read(&bytes, 5, 5), Err(Refusal::Damaged));
}

/// Bytes counted by hand: of the header, the ids, the table and the codes; in edition 1 of the header, the ids
/// and the stored numbers.
#[test]
fn counted_by_hand() {
    let len = |ids: &[u32], values: &[i64], table: &[i64]| {
        plans::write_exactly(ids, values, table, 9).map(|column| column.len())
    };
    // Stored are 0, 1, 0, 1 and 2995 at width 12; codes at width 2.
    let (ids, values) = ([0, 1, 2, 3, 4], [5, 6, 5, 6, 3000]);
    assert_eq!(len(&ids, &values, &[]), Ok(9 + 20 + 8));
    assert_eq!(lengths(&values), [9 + 20 + 24 + 2, 9 + 20 + 8]);
    // The differences 2^63 and 2^64 - 1 have no divisor but 1: width 64. The smallest value takes 10 bytes.
    let (ids, values) = ([0, 2, 7], [i64::MIN, 0, i64::MAX]);
    assert_eq!(len(&ids, &values, &values), Ok(9 + 16 + 24 + 1));
    assert_eq!(len(&ids, &values, &[]), Ok(18 + 16 + 24));
    assert_eq!(len(&ids, &values, &[0; 257]), Err(Refusal::Plan));
    // Stored are 0 and 1 at width 1, by the divisor 2^62, which takes 9 bytes. -2^62 takes 9, and then both
    // columns are as long; -2^63 takes 10, and the table saves a byte.
    let quarter = -(1 << 62);
    for (values, plain) in [
        ([quarter, 0], 25 + 14 + 1),
        ([i64::MIN, quarter], 26 + 14 + 1),
    ] {
        let table = 9 + 14 + 16 + 1;
        assert_eq!(len(&[0, 1], &values, &[]), Ok(plain));
        let saved = table < plain;
        let expected = if saved { Ok(table) } else { Err(Refusal::Plan) };
        assert_eq!(len(&[0, 1], &values, &values), expected);
        let proposed: &[i64] = if saved { &values } else { &[] };
        assert_eq!(plans::plan(&values), proposed);
    }
}

#[test]
fn tables_that_are_rejected() {
    let values = [1, i64::MIN, 0, 1];
    let column = by_plan(&values, &[i64::MIN, 0, 1]).unwrap();
    assert_eq!(same::check(&column), Ok(4));
    for table in [
        // One entry: the smallest, another, the greatest; and none of the values.
        &[i64::MIN][..],
        &[0],
        &[1],
        &[7],
        // A value is missing: each of them.
        &[0, 1],
        &[i64::MIN, 1],
        &[i64::MIN, 0],
        // An entry is not used: the first, one between, the last.
        &[i64::MIN, -1, 0, 1],
        &[i64::MIN, 0, 1, 2],
        &[-1, 0, 1],
        &[i64::MIN, 0, i64::MAX],
        // A pair descends, or stands still: at the front, at the end, all.
        &[0, i64::MIN, 1],
        &[i64::MIN, 1, 0],
        &[1, 0, i64::MIN],
        &[i64::MIN, i64::MIN, 0, 1],
        &[i64::MIN, 0, 1, 1],
        &[1, 1],
    ] {
        assert_eq!(by_plan(&values, table), Err(Refusal::Plan), "{table:?}");
    }
    // All of one value, and no values: plain alone.
    for values in [&[7; 9][..], &[]] {
        for table in [&[7][..], &[7, 8], &[6, 7]] {
            assert_eq!(by_plan(values, table), Err(Refusal::Plan), "{table:?}");
        }
        assert!(by_plan(values, &[]).is_ok());
        assert_eq!(plans::plan(values), []);
    }
}

#[test]
fn so_many_entries() {
    for entries in [2, 3, 4, 5, 254, 255, 256, 257, 258, 600] {
        let values = far_apart(entries, 1000);
        let table = distinct(&values);
        assert_eq!(table.len(), entries);
        let taken = entries <= MAX_TABLE;
        assert_eq!(plans::plan(&values), if taken { &table[..] } else { &[] });
        let written = by_plan(&values, &table);
        if !taken {
            assert_eq!(written, Err(Refusal::Plan));
            // Nor part of it, of as many entries as a table may have.
            assert_eq!(by_plan(&values, &table[..MAX_TABLE]), Err(Refusal::Plan));
            continue;
        }
        let column = written.unwrap();
        assert!(column == tables::parts(&values).bytes());
        assert_eq!(same::check(&column), Ok(1000));
        // One entry more or less.
        assert_eq!(by_plan(&values, &table[1..]), Err(Refusal::Plan));
        let more = [&table[..], &[i64::MAX - 7]].concat();
        let more = distinct(&more);
        assert_eq!(by_plan(&values, &more), Err(Refusal::Plan));
    }
}

/// Two values take one bit in edition 1 too. A table of them, 16 bytes, is shorter where the smallest value and
/// g take 19 bytes or more in edition 1's header, and V no more than before.
#[test]
fn two_values() {
    let values =
        |pair: [i64; 2], count: usize| -> Vec<i64> { (0..count).map(|i| pair[i % 2]).collect() };
    for (pair, bytes) in [
        ([i64::MIN, i64::MAX], 20),
        ([i64::MIN, i64::MIN + (1 << 62)], 19),
        ([1 - (1 << 62), i64::MAX], 19),
        ([1 << 60, 1 << 61], 18),
        ([i64::MIN, i64::MIN + 1], 11),
        ([5, 6], 2),
    ] {
        let numbers = Parts::of(&same::write_exactly(&[1, 2], &pair, Edition::Plain, 9)).numbers;
        let mut out = Vec::new();
        parts::put_number(&mut out, numbers[parts::LEAST]);
        parts::put_number(&mut out, numbers[parts::STEP]);
        assert_eq!(out.len(), bytes, "{pair:?}");
        for count in (2..30_usize).chain(870..1030) {
            // V takes a second byte for the table from 112 bytes of codes to 127.
            let longer = usize::from((112..128).contains(&count.div_ceil(8)));
            let values = values(pair, count);
            let [table, plain] = lengths(&values);
            assert_eq!(table + bytes, plain + 2 + 16 + longer, "{pair:?} {count}");
            let taken = bytes > 18 + longer;
            assert_eq!(taken, table < plain);
            let expected: &[i64] = if taken { &pair } else { &[] };
            assert_eq!(plans::plan(&values), expected, "{pair:?} {count}");
            assert_eq!(by_plan(&values, &pair).is_ok(), taken, "{pair:?} {count}");
            let checked = same::check(&tables::parts(&values).bytes());
            assert_eq!(checked.is_ok(), taken, "{pair:?} {count}");
        }
    }
}

/// More and more pairs, until a table is worth its bytes: it is taken from the first count on at which its column
/// is shorter, and not at one at which both are as long.
#[test]
fn as_long_as_edition_1() {
    let mut equal = 0;
    for table in [
        &[0, 1, 100][..],
        &[-7, 0, 1 << 20],
        &[0, 1, 2, 3, 4, 5, 6, 7, 1 << 40],
        &[i64::MIN, 0, 1],
        &[5, 6, 3000],
        &[0, 3, 6, 3 << 30],
    ] {
        for count in table.len()..300 {
            let values: Vec<i64> = (0..count).map(|i| table[i % table.len()]).collect();
            let [with_table, plain] = lengths(&values);
            let taken = with_table < plain;
            equal += usize::from(with_table == plain);
            assert_eq!(by_plan(&values, table).is_ok(), taken, "{table:?} {count}");
            assert_eq!(plans::plan(&values), if taken { table } else { &[] });
            let checked = same::check(&tables::parts(&values).bytes());
            let refused = Err(Refusal::Damaged);
            assert_eq!(checked, if taken { Ok(count as u64) } else { refused });
        }
    }
    assert!(equal > 0, "none is just as long");
}

/// 1, 2, 3, 4, then 17, then 6.
#[test]
fn the_order_of_refusals() {
    let (ids, values) = ([0, 2, 7, 9], [1, i64::MIN, 0, 1]);
    let (order, range) = ([4, 9, 9, MAX_ID + 1], [4, 9, 10, MAX_ID + 1]);
    let (table, bad) = ([i64::MIN, 0, 1], [0, 0]);
    let refused = |ids: &[u32], values: &[i64], table: &[i64], power| {
        plans::write(ids, values, table, power, 20).unwrap_err()
    };
    assert_eq!(refused(&order, &values[1..], &bad, 6), Refusal::Lengths);
    assert_eq!(refused(&order, &values, &bad, 6), Refusal::Power);
    assert_eq!(
        refused(&order, &values, &bad, 9),
        Refusal::Order { index: 2 }
    );
    assert_eq!(
        refused(&range, &values, &bad, 9),
        Refusal::Range { index: 3 }
    );
    assert_eq!(refused(&ids, &values, &bad, 9), Refusal::Plan);
    assert_eq!(
        refused(&ids, &values, &table, 9),
        Refusal::Room { needed: 52 }
    );
    assert_eq!(refused(&ids, &values, &[], 9), Refusal::Room { needed: 68 });
    assert_eq!(Refusal::Plan.number_with(), 0);
    // A plan that is rejected is told before the room, be there none or enough.
    for room in [0, 52, 99] {
        let rejected = plans::write(&ids, &values, &[0, 1], 9, room);
        assert_eq!(rejected, Err(Refusal::Plan));
    }
    // The writer that plans for itself never says so.
    let written = |edition, room| same::write(&ids, &values, edition, 9, room);
    assert_eq!(
        written(Edition::Table, 51),
        Err(Refusal::Room { needed: 52 })
    );
    assert_eq!(written(Edition::Table, 52).unwrap().len(), 52);
}

/// A table that is lent for the plan must have room for any, whatever the values are.
#[test]
fn room_for_a_plan() {
    for values in [
        &[][..],
        &[1, 2, 3],
        &far_apart(3, 100),
        &far_apart(300, 300),
    ] {
        for room in [0, 1, 3, 255] {
            let before: Vec<i64> = (0..room).collect();
            let mut table = before.clone();
            let refused = Err(Refusal::Buffer { needed: 256 });
            assert_eq!(signalfern::plan(values, &mut table), refused);
            assert_eq!(table, before);
        }
        let mut exact = [9; MAX_TABLE];
        let entries = signalfern::plan(values, &mut exact).unwrap();
        assert_eq!(exact[..entries], plans::plan(values));
        assert!(exact[entries..].iter().all(|&entry| entry == 9));
    }
}

/// Lists of every kind: the planner's plan is accepted and written by, and other tables are judged as the
/// reference judges them.
#[test]
fn many_lists() {
    let mut random = Random::new(95);
    let (mut tabled, mut plain, mut rejected) = (0, 0, 0);
    for round in 0..4000 {
        let ids = few_ids(&mut random, 60);
        let values = match round % 2 {
            0 => {
                let width = random.below(65) as u32;
                values_of_width(&mut random, ids.len(), width)
            }
            _ => {
                let distinct = 1 + random.below(9);
                let shift = random.below(64);
                let any = |random: &mut Random| random.next() as i64 >> shift;
                let few: Vec<i64> = (0..distinct).map(|_| any(&mut random)).collect();
                some_of(&mut random, &few, ids.len())
            }
        };
        let power = random.pick(&POWERS);
        let (column, table) = plans::planned(&ids, &values, power);
        assert_eq!(same::check(&column), Ok(ids.len() as u64));
        let read = same::read(&column, ids.len(), ids.len());
        assert!(read.unwrap() == (ids.clone(), values.clone()));
        tabled += usize::from(!table.is_empty());
        plain += usize::from(table.is_empty());
        // The distinct values as they are, and changed a little.
        let mut other = distinct(&values);
        let own = plans::write(&ids, &values, &other, power, 99_999);
        assert_eq!(own.is_ok(), other.is_empty() || other == table);
        for _ in 0..3 {
            let at = random.below(other.len().max(1));
            match random.below(4) {
                _ if other.is_empty() => other.push(random.next() as i64),
                0 => drop(other.remove(at)),
                1 => other.insert(at, other[at]),
                2 => other[at] = other[at].wrapping_add(random.pick(&[1, -1])),
                _ => other.swap(at, 0),
            }
            let judged = plans::write(&ids, &values, &other, power, 99_999);
            rejected += usize::from(judged == Err(Refusal::Plan));
        }
    }
    assert!(
        tabled > 400 && plain > 2000 && rejected > 5000,
        "{tabled} {plain} {rejected}"
    );
}
