//! Plans (document 02, [12]): the small check at each of its borders, the planner beside it, and the order of
//! refusals.

use super::plain::{column_of, put_number};
use super::*;

/// The pairs of these values, with the ids 0, 1, and so on.
pub fn pairs(values: &[i64]) -> BTreeMap<u32, i64> {
    (0..).zip(values.iter().copied()).collect()
}

/// The column by a plan, of those ids.
pub fn planned(values: &[i64], plan: &[i64]) -> Result<Vec<u8>, Refusal> {
    let ids: Vec<u32> = (0..values.len() as u32).collect();
    let mut out = vec![0xAA; 5000 + 9 * values.len()];
    let len = write_planned(&ids, values, plan, 9, &mut out)?;
    assert!(out[len as usize..].iter().all(|&byte| byte == 0xAA));
    out.truncate(len as usize);
    Ok(out)
}

/// The planner's table.
pub fn proposed(values: &[i64]) -> Vec<i64> {
    let mut table = [77; 258];
    let count = plan(values, &mut table).expect("room for all entries") as usize;
    assert!(table[count..].iter().all(|&entry| entry == 77));
    table[..count].to_vec()
}

/// Two values take one bit in edition 1 too: a table is shorter where it saves more in the header, of the
/// smallest value and of g, than its 16 bytes. V can take a byte more for it.
#[test]
fn the_shorter_column() {
    let numbers = |values: [i64; 2]| {
        let opened = open(&column_of(&pairs(&values), 1, 9)).unwrap();
        let bytes = |number: u64| {
            let mut out = Vec::new();
            put_number(&mut out, number.into());
            out.len()
        };
        (bytes(opened.smallest_number), bytes(opened.divisor))
    };
    for (values, bytes, longer_v) in [
        ([i64::MIN, i64::MAX], (10, 10), true),
        ([i64::MIN, i64::MIN + (1 << 62)], (10, 9), false),
        ([1 - (1 << 62), i64::MAX], (9, 10), false),
    ] {
        assert_eq!(numbers(values), bytes);
        for count in 2..1200_usize {
            let list: Vec<i64> = (0..count).map(|i| values[i % 2]).collect();
            let v = count.div_ceil(8);
            let taken = longer_v || !(v < 128 && v + 16 >= 128);
            let lengths = [4, 1].map(|edition| column_of(&pairs(&list), edition, 9).len());
            assert_eq!(lengths[0] < lengths[1], taken, "{values:?} {count}");
            assert_eq!(lengths[0] == lengths[1], !taken, "{values:?} {count}");
            let expected: &[i64] = if taken { &values } else { &[] };
            assert_eq!(proposed(&list), expected, "{values:?} {count}");
            assert_eq!(planned(&list, &values).is_ok(), taken);
            let checked = check(&column_of(&pairs(&list), 4, 9));
            assert_eq!(checked.is_ok(), taken);
        }
    }
    // As long as edition 1: rejected.
    let equal = [1 << 60, 1 << 61];
    assert_eq!(numbers(equal), (9, 9));
    let [four, one] = [4, 1].map(|edition| column_of(&pairs(&equal), edition, 9));
    assert_eq!(four.len(), one.len());
    assert_eq!(planned(&equal, &equal), Err(Refusal::PLAN));
    assert_eq!(check(&four), Err(Refusal::DAMAGED));
    assert_eq!(proposed(&equal), []);
}

#[test]
fn plans_that_are_rejected() {
    let values = [1, i64::MIN, 0, 1];
    assert!(planned(&values, &[i64::MIN, 0, 1]).is_ok());
    for plan in [
        // One entry; a value that is missing; one that is not used.
        &[0][..],
        &[i64::MIN, 1],
        &[0, 1],
        &[i64::MIN, 0],
        &[i64::MIN, 0, 1, 2],
        &[i64::MIN, -1, 0, 1],
        // Not ascending: a pair that descends, one that stands still, all turned round.
        &[0, i64::MIN, 1],
        &[i64::MIN, 1, 0],
        &[i64::MIN, 0, 0, 1],
        &[1, 0, i64::MIN],
    ] {
        assert_eq!(planned(&values, plan), Err(Refusal::PLAN), "{plan:?}");
    }
}

/// 1, 2, 3, 4, then 17, then 6; and nothing is changed.
#[test]
fn the_order_of_refusals() {
    let written = |ids: &[u32], values: &[i64], table: &[i64], power, room: usize| {
        let mut out = vec![0xAA; room];
        let reply = write_planned(ids, values, table, power, &mut out);
        assert!(reply.is_ok() || out.iter().all(|&byte| byte == 0xAA));
        reply
    };
    let (order, range) = ([4, 9, 9, MAX_ID + 1], [4, 9, 10, MAX_ID + 1]);
    let (values, bad) = ([1, i64::MIN, 0, 1], [0, 0]);
    let refused = |ids, values, table, power| written(ids, values, table, power, 3).unwrap_err();
    assert_eq!(refused(&order, &values[1..], &bad, 6), Refusal::LENGTHS);
    assert_eq!(refused(&order, &values, &bad, 6), Refusal::POWER);
    assert_eq!(refused(&order, &values, &bad, 9), Refusal::order(2));
    assert_eq!(refused(&range, &values, &bad, 9), Refusal::range(3));
    let ids = [0, 2, 7, 9];
    assert_eq!(refused(&ids, &values, &bad, 9), Refusal::PLAN);
    let table = [i64::MIN, 0, 1];
    assert_eq!(refused(&ids, &values, &table, 9), Refusal::room(52));
    assert_eq!(
        written(&ids, &values, &table, 9, 51),
        Err(Refusal::room(52))
    );
    assert_eq!(written(&ids, &values, &[], 9, 67), Err(Refusal::room(68)));
    assert_eq!(written(&ids, &values, &table, 9, 52), Ok(52));
    // The planner asks for room for any table, before it looks at a value.
    for room in [0, 1, 255] {
        let mut table = vec![77; room];
        assert_eq!(plan(&values, &mut table), Err(Refusal::buffer(256)));
        assert_eq!(table, vec![77; room]);
        assert_eq!(plan(&[], &mut table), Err(Refusal::buffer(256)));
    }
    assert_eq!(plan(&values, &mut [0; 256]), Ok(3));
}
