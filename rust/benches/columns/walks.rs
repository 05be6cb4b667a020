//! Pairs from an id on, by the call and by the iterators over it, and pairs by their ordinals; beside what else gives
//! the same.

use signalfern::{Checked, Column, Edition};
use signalfern_reference as reference;

use crate::calls::{value, Turns};
use crate::inputs::{Input, Order, Shape, Values, LOOK_UPS};
use crate::measure::{Measured, Table};
use crate::options::Effort;

/// Pairs that a call reads.
const ROOM: usize = 256;

/// The lines about them: each kind of block in edition 1, blocks of few ids, and the other editions.
pub fn table(effort: &Effort) -> Table {
    let mut table = Table::new("column", "other");
    let width = Values::Any(12);
    for (name, shape) in Shape::EACH {
        let input = Input::new(shape, effort.pairs, width);
        lines(&mut table, name, &input, effort);
    }
    for count in [1, 20, 4096] {
        let pairs = effort.pairs.min(10_000 * count as usize);
        let input = Input::new(Shape::Counted(count), pairs, width);
        lines(&mut table, &format!("{count} ids a block"), &input, effort);
    }
    let few = Values::Few {
        distinct: 200,
        width: 40,
    };
    for (name, edition, values) in [
        ("mixed, edition 2", Edition::Lucene, width),
        ("mixed, edition 3", Edition::Runs, width),
        ("mixed, edition 4", Edition::Table, few),
    ] {
        let input = Input::of_edition(Shape::Mixed, effort.pairs, values, edition);
        lines(&mut table, name, &input, effort);
    }
    table
}

fn lines(table: &mut Table, name: &str, input: &Input, effort: &Effort) {
    let (pairs, runs) = (input.ids.len(), effort.runs);
    let what = "all pairs by read_from, beside reading them whole";
    table.add(name, what, "pair", pairs, by_calls(input, runs));
    let what = "all pairs by Checked::iter, beside the reference's reading";
    table.add(name, what, "pair", pairs, by_iterator(input, runs));
    let starts = input.misses(effort.look_ups, Order::Random);
    let what = "ten pairs from an id on, beside ten by next";
    table.add(name, what, "walk", LOOK_UPS, ten(input, &starts, runs));
    let hits = input.hits(effort.look_ups, Order::Random);
    let what = "pair by ordinal, beside the look-up of its id";
    table.add(name, what, "pair", LOOK_UPS, by_ordinal(input, &hits, runs));
}

fn sum(sum: u64, (id, value): (u32, i64)) -> u64 {
    sum ^ u64::from(id) ^ value as u64
}

/// So many pairs with each call.
fn by_calls(input: &Input, runs: usize) -> Measured {
    let column = Column::open(&input.bytes).expect("a sound column");
    let pairs = input.ids.len();
    let (mut ids, mut values) = (vec![1; pairs], vec![1; pairs]);
    let measured = Measured::of(
        runs,
        &mut (&mut ids, &mut values),
        |(ids, values)| {
            let (mut done, mut from) = (0, 0);
            loop {
                let end = pairs.min(done + ROOM);
                let (ids, values) = (&mut ids[done..end], &mut values[done..end]);
                let Ok(read) = column.read_from(from, ids, values) else {
                    return 0;
                };
                done += read.count;
                if read.ended {
                    return done as u64;
                }
                from = ids[read.count - 1] + 1;
            }
        },
        |(ids, values)| signalfern::read(&input.bytes, ids, values).map_or(0, |n| n as u64),
    );
    assert!(ids == input.ids && values == input.values);
    measured
}

fn by_iterator(input: &Input, runs: usize) -> Measured {
    let checked = Checked::new(&input.bytes).expect("a sound column");
    let listed = input.ids.iter().copied().zip(input.values.iter().copied());
    assert!(checked.iter().eq(listed));
    let pairs = input.ids.len();
    let (mut ids, mut values) = (vec![1; pairs], vec![1; pairs]);
    Measured::of(
        runs,
        &mut (&mut ids, &mut values),
        |_| {
            let mut all = 0;
            for pair in checked {
                all = sum(all, pair);
            }
            all
        },
        |(ids, values)| {
            let _ = reference::read(&input.bytes, ids, values);
            let pairs = ids.iter().copied().zip(values.iter().copied());
            pairs.fold(0, sum)
        },
    )
}

fn ten(input: &Input, starts: &[u32], runs: usize) -> Measured {
    let checked = Checked::new(&input.bytes).expect("a sound column");
    let column = checked.column();
    let by_read = |id| checked.iter_from(id).take(10).fold(0, sum);
    let by_next = |id| {
        let pairs = column.candidates_from(id).flatten().take(10);
        pairs.fold(0, |all, it| sum(all, (it.id, it.value)))
    };
    assert!(starts.iter().all(|&id| by_read(id) == by_next(id)));
    Measured::of(
        runs,
        &mut Turns::new(starts),
        |turns| turns.sum(by_read),
        |turns| turns.sum(by_next),
    )
}

fn by_ordinal(input: &Input, hits: &[u32], runs: usize) -> Measured {
    let column = Column::open(&input.bytes).expect("a sound column");
    let asked: Vec<(u64, u32)> = (hits.iter())
        .map(|&id| (input.ids.partition_point(|&it| it < id) as u64, id))
        .collect();
    let pair = |ordinal| match column.pair_at(ordinal) {
        Ok(pair) => pair.map_or(0, |pair| pair.value as u64),
        Err(refusal) => refusal.number(),
    };
    assert!((asked.iter()).all(|&(ordinal, id)| pair(ordinal) == value(column.look_up(id))));
    Measured::of(
        runs,
        &mut Turns::new(&asked),
        |turns| turns.sum(|(ordinal, _)| pair(ordinal)),
        |turns| turns.sum(|(_, id)| value(column.look_up(id))),
    )
}
