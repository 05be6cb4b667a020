//! Edition 4 (document 02, [12]): its bytes by hand, its header, so many distinct values, and the check of
//! changed columns beside the plain writer. Plans that are taken or not: `plans`.

use std::collections::BTreeSet;

use super::plain::column_of;
use super::plans::{pairs, planned, proposed};
use super::*;

fn found(value: i64) -> impl Fn(Result<Answer, Refusal>) -> bool {
    move |answer| matches!(answer, Ok(Answer::Found { value: it, .. }) if it == value)
}

#[test]
fn columns_by_hand() {
    let mut out = [0xAA; 99];
    // Codes 2, 0, 1, 2 at width 2.
    let (ids, values) = ([0, 2, 7, 9], [1, i64::MIN, 0, 1]);
    let table = [i64::MIN, 0, 1];
    let header = [4, 4, 9, 18, 0, 2, 0, 3, 25];
    let section = [0, 0, 3, 0, 0, 0, 2, 0, 7, 0, 9, 0];
    let end = [0xFF, 0x7F, 0, 0, 0xFF, 0xFF];
    let entries = [
        [0, 0, 0, 0, 0, 0, 0, 0x80],
        [0; 8],
        [1, 0, 0, 0, 0, 0, 0, 0],
    ];
    let column = [&header[..], &section, &end, entries.as_flattened(), &[0x86]].concat();
    assert_eq!(write_planned(&ids, &values, &table, 9, &mut out), Ok(52));
    assert_eq!(out[..52], column);
    assert_eq!(out[52], 0xAA);
    // The writer that plans for itself comes to the same.
    out.fill(0xAA);
    assert_eq!(write(&ids, &values, 4, 9, &mut out), Ok(52));
    assert_eq!(out[..52], column);
    assert_eq!(check(&column), Ok(4));
    // In edition 1 each value takes 64 bits, and the smallest 10 bytes of the header.
    assert_eq!(write(&ids, &values, 1, 9, &mut out), Ok(68));
    // By plain, which is no table, edition 1 is written.
    out.fill(0xAA);
    assert_eq!(write_planned(&ids, &values, &[], 9, &mut out), Ok(68));
    assert_eq!((out[0], check(&out[..68])), (1, Ok(4)));
}

/// "Values 5, 6, 5, 6, 3000 have codes 0, 1, 0, 1, 2 at width 2, but that column is longer: rejected."
#[test]
fn the_case_of_the_request() {
    let values = [5, 6, 5, 6, 3000];
    let column = column_of(&pairs(&values), 4, 9);
    assert_eq!((column[5], column[7]), (2, 3));
    assert!(column.ends_with(&[0x11, 0x80]));
    assert!(column.len() > column_of(&pairs(&values), 1, 9).len());
    assert_eq!(check(&column), Err(Refusal::DAMAGED));
    for (id, value) in pairs(&values) {
        assert!(found(value)(look_up(&column, id)));
    }
    assert_eq!(planned(&values, &[5, 6, 3000]), Err(Refusal::PLAN));
    assert_eq!(proposed(&values), []);
    let mut out = [0; 99];
    let len = write(&[0, 1, 2, 3, 4], &values, 4, 9, &mut out).unwrap() as usize;
    assert_eq!(out[..len], column_of(&pairs(&values), 1, 9));
}

/// 1000 values, of which the given number is distinct. In edition 1 each takes 64 bits.
fn far_apart(distinct: i64) -> Vec<i64> {
    let value = |i: i64| match i {
        0 => i64::MIN,
        1 => i64::MAX,
        _ => i * i + 1,
    };
    (0..1000).map(|i| value(i % distinct)).collect()
}

#[test]
fn so_many_distinct_values() {
    for (distinct, width) in [
        (3, 2),
        (4, 2),
        (5, 3),
        (128, 7),
        (129, 8),
        (255, 8),
        (256, 8),
    ] {
        let values = far_apart(distinct);
        let table: Vec<i64> = BTreeSet::from_iter(values.iter().copied())
            .into_iter()
            .collect();
        assert_eq!(table.len(), distinct as usize);
        assert_eq!(proposed(&values), table);
        let column = planned(&values, &table).unwrap();
        assert_eq!(column, column_of(&pairs(&values), 4, 9));
        assert_eq!((column[0], check(&column)), (4, Ok(1000)));
        let opened = open(&column).unwrap();
        assert_eq!((opened.width, opened.smallest_number), (width, 0));
        assert_eq!(opened.divisor, distinct as u64);
        assert_eq!(opened.value_bytes, 8 * distinct as u64 + 125 * width);
        let mut read_values = vec![0; 1000];
        assert_eq!(read(&column, &mut [0; 1000], &mut read_values), Ok(1000));
        assert_eq!(read_values, values);
    }
    // One too many, and one or none.
    let many = far_apart(257);
    let mut table = many[..257].to_vec();
    table.sort_unstable();
    assert_eq!(proposed(&many), []);
    assert_eq!(planned(&many, &table), Err(Refusal::PLAN));
    assert_eq!(planned(&many, &table[..256]), Err(Refusal::PLAN));
    assert_eq!(check(&column_of(&pairs(&many), 4, 9)), Err(Refusal::HEADER));
    for few in [&[][..], &[7], &[i64::MIN; 1000]] {
        assert_eq!(proposed(few), []);
        assert_eq!(planned(few, &[]), Ok(column_of(&pairs(few), 1, 9)));
    }
    assert_eq!(planned(&[7; 9], &[7]), Err(Refusal::PLAN));
    assert_eq!(planned(&[], &[7]), Err(Refusal::PLAN));
}

#[test]
fn headers() {
    // 5 entries at width 3: T, w, the smallest value and V stand in bytes 7, 5, 6 and 8.
    let column = column_of(&pairs(&far_apart(5)[..9]), 4, 9);
    assert_eq!(column[5..9], [3, 0, 5, 44]);
    assert_eq!(check(&column), Ok(9));
    for (at, byte) in [
        (5, 0),
        (5, 2),
        (5, 4),
        (5, 64),
        (6, 1),
        (6, 2),
        (7, 0),
        (7, 1),
        (7, 4),
        (7, 6),
        (8, 43),
        (8, 45),
    ] {
        let mut other = column.clone();
        other[at] = byte;
        assert_eq!(open(&other), Err(Refusal::HEADER), "{at} {byte}");
    }
    // T of 1 with the w and V that it would have, and of 257.
    for (entries, width) in [(0, 0), (1, 0), (2, 1), (256, 8), (257, 9), (1 << 60, 60)] {
        let mut opened = open(&column).unwrap();
        (opened.divisor, opened.width) = (entries, width);
        opened.value_bytes = (8 * u128::from(entries) + u128::from(9 * width).div_ceil(8)) as u64;
        let bytes = vec![0; (opened.start + opened.id_bytes) as usize];
        let expected = match entries {
            2 | 256 => Refusal::LENGTH,
            _ => Refusal::HEADER,
        };
        assert_eq!(look_up_in(&opened, &bytes, 0), Err(expected), "{entries}");
    }
    // The last code, 2, made 5, 6 and 7, which have no entry.
    let mut other = column.clone();
    let last = other.len() - 1;
    assert_eq!(column[last], 2 << 5);
    for broken in 5..8 {
        other[last] = broken << 5;
        assert_eq!(check(&other), Err(Refusal::DAMAGED));
        assert_eq!(look_up(&other, 8), Err(Refusal::BROKEN));
        assert!(look_up(&other, 7).is_ok());
    }
}

/// The values of a column of ids 0, 1, ..., by its look-ups.
fn looked_up(column: &[u8], count: u32) -> Option<Vec<i64>> {
    (0..count)
        .map(|id| match look_up(column, id) {
            Ok(Answer::Found { value, .. }) => Some(value),
            _ => None,
        })
        .collect()
}

/// Changed sections are accepted exactly if the plain writer gives them for what they hold; the planner
/// proposes what the plain writer writes by, and no other table is taken for its values.
#[test]
fn changed_bytes() {
    let mut random = Random(71);
    let (mut accepted, mut refused, mut broken) = (0, 0, 0);
    for round in 0..30_000 {
        let entries = 2 + random.below(5) as usize;
        let shift = random.below(30) as u32;
        let any: Vec<i64> = (0..entries)
            .map(|_| random.next() as i64 >> shift)
            .collect();
        let count = 3 + random.below(14) as u32;
        let values: Vec<i64> = (0..count)
            .map(|_| any[random.below(entries as u64) as usize])
            .collect();
        let distinct = BTreeSet::from_iter(values.iter().copied());
        if distinct.len() < 2 {
            continue;
        }
        let table: Vec<i64> = distinct.into_iter().collect();
        // Whether a table is shorter or not.
        let mut column = column_of(&pairs(&values), 4, 9);
        let written = plain_column(&pairs(&values), 4, 9);
        let taken = written == column;
        assert_eq!(proposed(&values), if taken { &table[..] } else { &[] });
        let by_plan = planned(&values, &table);
        let expected = if taken {
            Ok(written)
        } else {
            Err(Refusal::PLAN)
        };
        assert_eq!(by_plan, expected, "round {round}");
        let mut other = table.clone();
        other[random.below(table.len() as u64) as usize] = any[0] ^ 1;
        assert!(other == table || planned(&values, &other) == Err(Refusal::PLAN));

        let bytes = open(&column).unwrap().value_bytes as usize;
        let (start, entries) = (column.len() - bytes, 8 * table.len());
        for _ in 0..random.below(3) {
            // A byte of the codes, or any.
            let from = [0, entries][random.below(2) as usize];
            let at = start + from + random.below((bytes - from) as u64) as usize;
            column[at] = match random.below(3) {
                0 => column[at].wrapping_add(1),
                1 => column[at] ^ 1 << random.below(8),
                _ => random.next() as u8,
            };
        }
        let listed = looked_up(&column, count);
        let sound = (listed.as_ref()).is_some_and(|it| plain_column(&pairs(it), 4, 9) == column);
        let expected = if sound {
            Ok(count.into())
        } else {
            Err(Refusal::DAMAGED)
        };
        assert_eq!(check(&column), expected, "round {round}");
        accepted += usize::from(sound);
        refused += usize::from(!sound);
        broken += usize::from(listed.is_none());
    }
    assert!(
        accepted > 5000 && refused > 9000 && broken > 1000,
        "{accepted} {refused} {broken}"
    );
}
