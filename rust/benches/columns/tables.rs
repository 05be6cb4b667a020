//! Edition 4, a table of few distinct values, beside edition 1; and the planner beside the reference's.

use std::hint::black_box;

use signalfern::{Column, Edition, MAX_TABLE};
use signalfern_reference as reference;

use crate::editions::{by_bytes, by_column, check, read, write, Sides};
use crate::inputs::{Input, Order, Shape, Values, LOOK_UPS};
use crate::measure::{Measured, Table};
use crate::options::Effort;

/// How many distinct values there are, and how many bits their differences take. Two of 20 bits and 16 of 4
/// take as few bits in edition 1.
const LISTS: [(usize, u32); 6] = [(2, 20), (2, 64), (16, 4), (16, 20), (256, 20), (256, 64)];

/// The lines about them, in columns with blocks of every kind. Prints the bytes of a pair first.
pub fn table(effort: &Effort) -> Table {
    let mut table = Table::new("values", "other");
    println!("| distinct values | bits of their differences | bytes a pair, told edition 4 | edition 1 | ratio | written |");
    println!("|---:|---:|---:|---:|---:|---|");
    for (distinct, width) in LISTS {
        let sides = [Edition::Table, Edition::Plain].map(|edition| {
            let values = Values::Few { distinct, width };
            Input::of_edition(Shape::Mixed, effort.pairs, values, edition)
        });
        bytes_of_a_pair(distinct, width, &sides);
        let name = format!("{distinct} of {width} bits");
        planner(&mut table, &name, &sides, effort.runs);
        if is_tabled(&sides[0]) {
            beside_edition_1(&mut table, &name, &sides, effort);
        }
    }
    println!();
    table
}

fn is_tabled(input: &Input) -> bool {
    Column::open(&input.bytes).is_ok_and(|column| column.edition() == Edition::Table)
}

fn bytes_of_a_pair(distinct: usize, width: u32, sides: &Sides) {
    let [table, plain] = sides
        .each_ref()
        .map(|side| side.bytes.len() as f64 / side.ids.len() as f64);
    let written = if is_tabled(&sides[0]) {
        "a table"
    } else {
        "plain"
    };
    println!(
        "| {distinct} | {width} | {table:.3} | {plain:.3} | {:.2} | {written} |",
        table / plain
    );
}

fn beside_edition_1(table: &mut Table, name: &str, sides: &Sides, effort: &Effort) {
    let (pairs, runs) = (sides[0].ids.len(), effort.runs);
    let beside = |call: &str| format!("{call}, beside edition 1");
    let what = beside("write, planning for itself");
    table.add(name, &what, "pair", pairs, write(sides, runs));
    let what = beside("write by a plan");
    table.add(name, &what, "pair", pairs, by_plan(sides, runs));
    table.add(name, &beside("check"), "pair", pairs, check(sides, runs));
    table.add(name, &beside("read"), "pair", pairs, read(sides, runs));
    let ids = sides[0].hits(effort.look_ups, Order::Random);
    let what = beside("look-up by bytes, random hits");
    let measured = by_bytes(sides, &ids, runs);
    table.add(name, &what, "look-up", LOOK_UPS, measured);
    let what = beside("look-up by opened column, random hits");
    let measured = by_column(sides, &ids, runs);
    table.add(name, &what, "look-up", LOOK_UPS, measured);
}

/// The writer that takes a plan, beside the writer of edition 1.
fn by_plan([tabled, plain]: &Sides, runs: usize) -> Measured {
    let plan = signalfern::plan_to_vec(&tabled.values).expect("a plan");
    let mut outs = [tabled, plain].map(|side| vec![1; side.bytes.len()]);
    let measured = Measured::of(
        runs,
        &mut outs,
        |outs| {
            let out = &mut outs[0];
            let written = signalfern::write_planned(&tabled.ids, &tabled.values, &plan, 9, out);
            written.map_or(0, |len| len as u64)
        },
        |outs| {
            let out = &mut outs[1];
            let written = signalfern::write(&plain.ids, &plain.values, Edition::Plain, 9, out);
            written.map_or(0, |len| len as u64)
        },
    );
    assert!(outs[0] == tabled.bytes && outs[1] == plain.bytes);
    measured
}

/// The planner alone.
fn planner(table: &mut Table, name: &str, sides: &Sides, runs: usize) {
    let values = &sides[0].values;
    let mut tables = [[1; MAX_TABLE]; 2];
    let measured = Measured::of(
        runs,
        &mut tables,
        |tables| signalfern::plan(black_box(values), &mut tables[0]).map_or(0, |n| n as u64),
        |tables| reference::plan(black_box(values), &mut tables[1]).unwrap_or(0),
    );
    assert_eq!(tables[0], tables[1]);
    let what = "plan, beside the reference's";
    table.add(name, what, "value", values.len(), measured);
}
