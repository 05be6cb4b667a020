//! Sets on disk, beside the reference; and the bytes of an id, beside those of a column's id section.

use std::hint::black_box;

use signalfern::Column;
use signalfern_reference as reference;

use crate::inputs::{Input, Order, Shape, Values};
use crate::measure::{Measured, Table};
use crate::options::Effort;

/// Blocks of each kind that a set has: listed, a bitmap, those whose missing places are listed (few of
/// them, and none), and some of each.
const SHAPES: [(&str, Shape); 5] = [
    ("1000 ids a block", Shape::Sparse),
    ("half of each block", Shape::Dense),
    ("all but 1000 of each block", Shape::Counted(64_536)),
    ("every second block, whole", Shape::Full),
    ("mixed", Shape::Mixed),
];

/// How many ids are asked for in one run; and an odd number of runs, so that in turns both sides get each.
const QUESTIONS: usize = 8;
const RUNS: usize = 21;

/// The lines about them. Prints the bytes of an id first.
pub fn table(effort: &Effort) -> Table {
    let mut table = Table::new("set", "reference");
    println!("| set | ids | bytes an id, set | id section | ratio |");
    println!("|---|---:|---:|---:|---:|");
    for (name, shape) in SHAPES {
        let input = Input::new(shape, effort.pairs, Values::Any(0));
        let set = signalfern::set_write_to_vec(&input.ids).expect("a list of ids");
        bytes_of_an_id(name, &input, &set);
        let (ids, runs) = (input.ids.len(), effort.runs);
        table.add(name, "set write", "id", ids, write(&input.ids, &set, runs));
        table.add(name, "set check", "byte", set.len(), check(&set, ids, runs));
        let asked = input.hits(RUNS * QUESTIONS, Order::Random);
        table.add(
            name,
            "set find",
            "find",
            QUESTIONS,
            find(&set, &asked, runs),
        );
    }
    println!();
    table
}

fn bytes_of_an_id(name: &str, input: &Input, set: &[u8]) {
    let column = Column::open(&input.bytes).expect("a sound column");
    let ids = input.ids.len() as f64;
    let [set, section] = [set.len() as f64, column.header().id_bytes as f64].map(|n| n / ids);
    println!(
        "| {name} | {ids} | {set:.4} | {section:.4} | {:.2} |",
        set / section
    );
}

fn write(ids: &[u32], set: &[u8], runs: usize) -> Measured {
    let mut outs = [vec![1; set.len()], vec![1; set.len()]];
    let measured = Measured::of(
        runs,
        &mut outs,
        |outs| signalfern::set_write(black_box(ids), &mut outs[0]).map_or(0, |len| len as u64),
        |outs| reference_write(ids, &mut outs[1]),
    );
    assert!(outs.iter().all(|out| out == set));
    measured
}

fn check(set: &[u8], ids: usize, runs: usize) -> Measured {
    assert_eq!(signalfern::set_check(set), Ok(ids as u64));
    Measured::of(
        runs,
        &mut (),
        |()| signalfern::set_check(black_box(set)).unwrap_or(0),
        |()| reference_check(set),
    )
}

/// Runs of questions, each of which goes over the whole set. No run asks for the ids of the run before.
fn find(set: &[u8], ids: &[u32], runs: usize) -> Measured {
    Measured::of(
        runs,
        &mut ids.chunks(QUESTIONS).cycle(),
        |asked| {
            sum(asked.next(), |id| {
                signalfern::set_find(black_box(set), id).ok().flatten()
            })
        },
        |asked| sum(asked.next(), |id| reference_find(set, id)),
    )
}

fn sum(ids: Option<&[u32]>, find: impl Fn(u32) -> Option<u64>) -> u64 {
    ids.unwrap_or(&[]).iter().filter_map(|&id| find(id)).sum()
}

#[inline(never)]
fn reference_write(ids: &[u32], out: &mut [u8]) -> u64 {
    reference::set_write(black_box(ids), out).unwrap_or(0)
}

#[inline(never)]
fn reference_check(set: &[u8]) -> u64 {
    reference::set_check(black_box(set)).unwrap_or(0)
}

#[inline(never)]
fn reference_find(set: &[u8], id: u32) -> Option<u64> {
    reference::set_find(black_box(set), id).ok().flatten()
}
