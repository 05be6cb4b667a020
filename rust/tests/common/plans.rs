//! The calls on plans (document 02, [12]), each beside the reference, on buffers filled beforehand.

use signalfern::{Edition, Refusal, MAX_TABLE};
use signalfern_reference as reference;

use super::same;

fn numbers(refusal: Refusal) -> (u64, u64) {
    (refusal.number(), refusal.number_with())
}

/// Writes by a plan to `room` bytes; gives the column if there was one.
#[track_caller]
pub fn write(
    ids: &[u32],
    values: &[i64],
    table: &[i64],
    power: u32,
    room: usize,
) -> Result<Vec<u8>, Refusal> {
    let before = same::filling(room);
    let (mut ours, mut theirs) = (before.clone(), before.clone());
    let result = signalfern::write_planned(ids, values, table, power, &mut ours);
    let expected = reference::write_planned(ids, values, table, power, &mut theirs);
    let expected = expected.map_err(|refusal| (refusal.number, refusal.with));
    assert_eq!(
        result.map(|len| len as u64).map_err(numbers),
        expected,
        "{table:?}"
    );
    let changed = result.unwrap_or(0);
    assert!(ours[..changed] == theirs[..changed], "other bytes");
    assert!(
        ours[changed..] == before[changed..],
        "bytes after the column changed"
    );
    ours.truncate(changed);
    result.map(|_| ours)
}

/// Writes by a plan to just the room that is needed, and to one byte less.
#[track_caller]
pub fn write_exactly(
    ids: &[u32],
    values: &[i64],
    table: &[i64],
    power: u32,
) -> Result<Vec<u8>, Refusal> {
    let needed = match write(ids, values, table, power, 0) {
        Err(Refusal::Room { needed }) => needed,
        refused => return refused,
    };
    let short = write(ids, values, table, power, needed - 1);
    assert_eq!(short, Err(Refusal::Room { needed }));
    let column = write(ids, values, table, power, needed)?;
    let by_vector = signalfern::write_planned_to_vec(ids, values, table, power);
    assert!(by_vector.as_ref() == Ok(&column));
    Ok(column)
}

/// What the planner proposes into a table with two places more than it may need; none is plain.
#[track_caller]
pub fn plan(values: &[i64]) -> Vec<i64> {
    let before: Vec<i64> = (0..MAX_TABLE as i64 + 2).map(|i| !(i * 5)).collect();
    let (mut ours, mut theirs) = (before.clone(), before.clone());
    let entries = signalfern::plan(values, &mut ours).expect("room for any table");
    assert_eq!(reference::plan(values, &mut theirs), Ok(entries as u64));
    assert_eq!(ours, theirs);
    assert!(ours[entries..] == before[entries..], "places after it");
    ours.truncate(entries);
    assert_eq!(signalfern::plan_to_vec(values).as_ref(), Ok(&ours));
    ours
}

/// The planner's plan is accepted, and the writer that is told edition 4 writes by it. Gives the column and
/// the plan.
#[track_caller]
pub fn planned(ids: &[u32], values: &[i64], power: u32) -> (Vec<u8>, Vec<i64>) {
    let table = plan(values);
    let column = write_exactly(ids, values, &table, power).expect("a plan that is accepted");
    let by_itself = same::write_exactly(ids, values, Edition::Table, power);
    assert!(by_itself == column, "{table:?}");
    if table.is_empty() {
        let plain = same::write_exactly(ids, values, Edition::Plain, power);
        assert!(plain == column);
    }
    (column, table)
}
