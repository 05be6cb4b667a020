//! Edition 3, values in runs with a summary, beside edition 1; and the search for a value beside a plain
//! scan of the values, which were read before.

use std::hint::black_box;

use signalfern::{Column, Edition, RUN_LENGTH};
use signalfern_reference as reference;

use crate::editions::{by_bytes, by_column, check, read, write, Sides};
use crate::inputs::{Input, Order, Shape, Values, LOOK_UPS};
use crate::measure::{Measured, Table};
use crate::options::Effort;

/// The lines about them, in columns with blocks of every kind. Prints the bytes of a pair first.
pub fn table(effort: &Effort) -> Table {
    let mut table = Table::new("values", "other");
    println!("| values | bytes a pair, edition 3 | edition 1 | edition 3 / edition 1 |");
    println!("|---|---:|---:|---:|");
    for (name, values) in [
        ("of 12 bits", Values::Any(12)),
        ("of 64 bits", Values::Any(64)),
        ("tiny and huge", Values::TinyAndHuge),
    ] {
        let sides = |pairs| {
            [Edition::Runs, Edition::Plain]
                .map(|edition| Input::of_edition(Shape::Mixed, pairs, values, edition))
        };
        bytes_of_a_pair(name, &sides(SEARCHED * effort.pairs));
        beside_edition_1(&mut table, name, &sides(effort.pairs), effort);
    }
    println!();
    searches(&mut table, effort);
    table
}

/// So many times the pairs of the other tables, that there are runs to skip.
const SEARCHED: usize = 10;

fn bytes_of_a_pair(name: &str, sides: &Sides) {
    let [runs, plain] = sides.each_ref().map(|side| {
        let bytes = side.bytes.len() as f64;
        bytes / side.ids.len() as f64
    });
    println!("| {name} | {runs:.3} | {plain:.3} | {:.2} |", runs / plain);
}

fn beside_edition_1(table: &mut Table, name: &str, sides: &Sides, effort: &Effort) {
    let (pairs, runs) = (sides[0].ids.len(), effort.runs);
    let beside = |call: &str| format!("{call}, beside edition 1");
    table.add(name, &beside("write"), "pair", pairs, write(sides, runs));
    table.add(name, &beside("check"), "pair", pairs, check(sides, runs));
    table.add(name, &beside("read"), "pair", pairs, read(sides, runs));
    let ids = sides[0].hits(effort.look_ups, Order::Random);
    let what = beside("look-up by bytes, random hits");
    table.add(
        name,
        &what,
        "look-up",
        LOOK_UPS,
        by_bytes(sides, &ids, runs),
    );
    let what = beside("look-up by opened column, random hits");
    table.add(
        name,
        &what,
        "look-up",
        LOOK_UPS,
        by_column(sides, &ids, runs),
    );
}

/// Searches in a column of tiny and huge values: what is found in the first run, in one of the last, in
/// none though no run can be skipped, and in none with all skipped.
fn searches(table: &mut Table, effort: &Effort) {
    let pairs = SEARCHED * effort.pairs;
    let input = Input::of_edition(Shape::Mixed, pairs, Values::TinyAndHuge, Edition::Runs);
    let greatest = input.values.iter().copied().max().unwrap_or(0);
    let name = format!("{} runs", input.values.len().div_ceil(RUN_LENGTH));
    for (what, low, high) in [
        ("tiny, in the first run", 2, 2),
        ("huge, in one of the last runs", greatest, i64::MAX),
        ("none, no run skipped", 7, 7),
        ("none, all runs skipped", greatest + 1, i64::MAX),
    ] {
        let scan = beside_scan(&input, low, high, effort.runs);
        let line = format!("search by opened column, {what}, beside a scan");
        table.add(&name, &line, "search", 1, scan);
        let theirs = beside_reference(&input, low, high, effort.runs);
        let line = format!("search by opened column, {what}, beside the reference");
        table.add(&name, &line, "search", 1, theirs);
    }
}

fn found(ordinal: Option<u64>) -> u64 {
    ordinal.map_or(u64::MAX, |ordinal| ordinal)
}

fn search(column: &Column, low: i64, high: i64) -> u64 {
    column.first_between(low, high).map_or(0, found)
}

fn beside_scan(input: &Input, low: i64, high: i64, runs: usize) -> Measured {
    let column = Column::open(&input.bytes).expect("a sound column");
    assert_eq!(search(&column, low, high), scan(&input.values, low, high));
    Measured::of(
        runs,
        &mut (),
        |()| search(&column, low, high),
        |()| scan(black_box(&input.values), low, high),
    )
}

fn beside_reference(input: &Input, low: i64, high: i64, runs: usize) -> Measured {
    let ours = Column::open(&input.bytes).expect("a sound column");
    let theirs = reference::open(&input.bytes).expect("a sound column");
    Measured::of(
        runs,
        &mut (),
        |()| search(&ours, low, high),
        |()| reference_search(&theirs, &input.bytes, low, high),
    )
}

#[inline(never)]
fn scan(values: &[i64], low: i64, high: i64) -> u64 {
    let index = values
        .iter()
        .position(|&value| low <= value && value <= high);
    found(index.map(|index| index as u64))
}

#[inline(never)]
fn reference_search(column: &reference::Column, bytes: &[u8], low: i64, high: i64) -> u64 {
    let ordinal = reference::first_between_in(column, black_box(bytes), low, high);
    ordinal.map_or(0, found)
}
