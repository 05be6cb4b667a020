//! The next candidate by an opened column, beside what else gives the same.

use std::hint::black_box;

use signalfern::{Column, Cursor, Edition, MAX_ID};
use signalfern_reference as reference;

use crate::calls::{value, Turns};
use crate::inputs::{Input, Order, Shape, Values, LOOK_UPS};
use crate::measure::{Measured, Table};
use crate::options::Effort;

/// The lines about it.
pub fn table(effort: &Effort) -> Table {
    let mut table = Table::new("column", "other");
    for (name, shape) in Shape::EACH {
        let input = Input::new(shape, effort.pairs, Values::Any(12));
        let hits = input.hits(effort.look_ups, Order::Random);
        let misses = input.misses(effort.look_ups, Order::Random);
        for (kind, targets) in [("listed targets", hits), ("others", misses)] {
            let what = format!("next, {kind}, beside the look-up of the id found");
            let measured = beside_look_up(&input, &targets, effort.runs);
            table.add(name, &what, "call", LOOK_UPS, measured);
        }
        let pairs = input.ids.len();
        let walk = "all pairs by next, beside";
        let measured = beside_read(&input, effort.runs);
        table.add(
            name,
            &format!("{walk} reading them"),
            "pair",
            pairs,
            measured,
        );
        let measured = beside_reference(&input, effort.runs);
        table.add(
            name,
            &format!("{walk} the reference's"),
            "pair",
            pairs,
            measured,
        );
    }
    let input = Input::new(Shape::Counted(4000), 64_000, Values::Any(12));
    let targets = input.hits(effort.look_ups, Order::Random);
    let measured = by_column(&input.bytes, &targets, effort.runs);
    let what = "next in a sparse block, beside the reference's";
    table.add("4000 ids a block", what, "call", LOOK_UPS, measured);
    let gap = signalfern::write_to_vec(&[0, 32_001 << 16], &[1, 2], Edition::Plain, 9)
        .expect("a list of pairs");
    let measured = by_column(&gap, &[1], effort.runs);
    let what = "next past 32000 missing blocks, beside the reference's";
    table.add("two ids", what, "call", 1, measured);
    table
}

/// Targets, beside the look-up of the first id at or above each.
fn beside_look_up(input: &Input, targets: &[u32], runs: usize) -> Measured {
    let column = Column::open(&input.bytes).expect("a sound column");
    let found = |target: u32| {
        let index = input.ids.partition_point(|&id| id < target);
        input.ids.get(index).copied()
    };
    let asked: Vec<(u32, u32)> = (targets.iter())
        .filter_map(|&target| Some((target, found(target)?)))
        .collect();
    assert!((asked.iter()).all(|&(target, id)| next(&column, target) == value(column.look_up(id))));
    Measured::of(
        runs,
        &mut Turns::new(&asked),
        |turns| turns.sum(|(target, _)| next(&column, target)),
        |turns| turns.sum(|(_, id)| value(column.look_up(id))),
    )
}

fn beside_read(input: &Input, runs: usize) -> Measured {
    let column = Column::open(&input.bytes).expect("a sound column");
    let pairs = input.ids.len();
    let (mut ids, mut values) = (vec![1; pairs], vec![1; pairs]);
    Measured::of(
        runs,
        &mut (&mut ids, &mut values),
        |_| walk(&column),
        |(ids, values)| signalfern::read(&input.bytes, ids, values).map_or(0, |n| n as u64),
    )
}

fn beside_reference(input: &Input, runs: usize) -> Measured {
    let ours = Column::open(&input.bytes).expect("a sound column");
    let theirs = reference::open(&input.bytes).expect("a sound column");
    let sum = input
        .values
        .iter()
        .fold(0, |sum, &value| sum ^ value as u64);
    assert!(walk(&ours) == sum && reference_walk(&theirs, &input.bytes) == sum);
    Measured::of(
        runs,
        &mut (),
        |()| walk(&ours),
        |()| reference_walk(&theirs, &input.bytes),
    )
}

fn by_column(bytes: &[u8], targets: &[u32], runs: usize) -> Measured {
    let ours = Column::open(bytes).expect("a sound column");
    let theirs = reference::open(bytes).expect("a sound column");
    Measured::of(
        runs,
        &mut Turns::new(targets),
        |turns| turns.sum(|target| next(&ours, target)),
        |turns| turns.sum(|target| reference_next(&theirs, &mut 0, bytes, target).1),
    )
}

/// The value of the candidate, from a new cursor.
fn next(column: &Column, target: u32) -> u64 {
    match column.next(&mut Cursor::new(), target) {
        Ok(found) => found.map_or(0, |found| found.value as u64),
        Err(refusal) => refusal.number(),
    }
}

/// All values, from candidate to candidate.
fn walk(column: &Column) -> u64 {
    let candidates = column.candidates_from(0).flatten();
    candidates.fold(0, |sum, found| sum ^ found.value as u64)
}

fn reference_walk(column: &reference::Column, bytes: &[u8]) -> u64 {
    let (mut cursor, mut target, mut sum) = (0, 0, 0);
    while target <= MAX_ID {
        let (id, value) = reference_next(column, &mut cursor, bytes, target);
        let Some(id) = id else { break };
        sum ^= value;
        target = id + 1;
    }
    sum
}

/// The id, if there is one, and its value.
#[inline(never)]
fn reference_next(
    column: &reference::Column,
    cursor: &mut u32,
    bytes: &[u8],
    target: u32,
) -> (Option<u32>, u64) {
    match reference::next_in(column, cursor, black_box(bytes), target) {
        Ok(found) => (found.map(|it| it.id), found.map_or(0, |it| it.value as u64)),
        Err(refusal) => (None, refusal.number),
    }
}
