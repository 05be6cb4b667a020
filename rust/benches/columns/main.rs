//! The proved calls beside the reference, in one run: `cargo bench`.
//!
//! Prints the tables of docs/PERFORMANCE.md, and draws its plot. Both sides work on the same columns
//! and buffers, in turns. Output buffers are written once before the first measured run and are not
//! cleared between runs. Each run of look-ups takes the next thousand ids.

mod calls;
mod editions;
mod inputs;
mod layered;
mod measure;
mod next;
mod options;
mod page;
mod plot;
mod runs;
mod sets;
mod tables;
mod walks;

use std::process::ExitCode;

use inputs::{Input, Order, Shape, Values, LOOK_UPS};
use measure::{Table, Times};
use options::{Effort, Options, Rows};

fn main() -> ExitCode {
    let result = Options::read(std::env::args().skip(1)).and_then(|options| run(&options));
    if let Err(message) = result {
        eprintln!("{message}");
        return ExitCode::from(2);
    }
    ExitCode::SUCCESS
}

fn run(options: &Options) -> Result<(), String> {
    let effort = &options.effort;
    println!("{}\n", measure::machine());
    println!(
        "Median of {} runs, both sides in turns; release build; output buffers written \
         once before and not cleared between runs; {LOOK_UPS} look-ups a run, each run with other \
         ids than the one before; rank power 9.\n",
        effort.runs
    );
    if let Some(file) = &options.plot {
        return growth(effort).save(file);
    }
    let table = match options.rows {
        Rows::Shapes => shapes(effort),
        Rows::Widths => widths(effort),
        Rows::Divisors => divisors(effort),
        Rows::Counts => counts(effort),
        Rows::Next => next::table(effort),
        Rows::Walks => walks::table(effort),
        Rows::Layered => layered::table(effort),
        Rows::Pages => page::table(effort),
        Rows::Editions => editions::table(effort),
        Rows::Runs => runs::table(effort),
        Rows::Tables => tables::table(effort),
        Rows::Sets => sets::table(effort),
    };
    table.print(options.before.as_ref());
    let mut times = Times::default();
    table.keep(&mut times);
    match &options.save {
        Some(file) => std::fs::write(file, times.text())
            .map_err(|error| format!("{}: {error}", file.display())),
        None => Ok(()),
    }
}

/// Every call on every kind of block, numbers of 12 bits.
fn shapes(effort: &Effort) -> Table {
    let mut table = Table::new("column", "reference");
    for (name, shape) in Shape::EACH {
        let input = Input::new(shape, effort.pairs, Values::Any(12));
        whole_columns(&mut table, name, &input, effort.runs);
        for order in [Order::Random, Order::Ascending] {
            let hits = input.hits(effort.look_ups, order);
            let misses = input.misses(effort.look_ups, order);
            for (kind, ids) in [("hits", hits), ("misses", misses)] {
                let kind = format!("{} {kind}", order.name());
                look_ups(&mut table, name, &kind, &input, &ids, effort.runs);
            }
        }
    }
    table
}

/// Every call at several widths of stored numbers, in columns with blocks of every kind.
fn widths(effort: &Effort) -> Table {
    let mut table = Table::new("width", "reference");
    for width in [0, 1, 7, 8, 12, 14, 15, 16, 20, 33, 57, 58, 63, 64] {
        let input = Input::new(Shape::Mixed, effort.pairs, Values::Any(width));
        let name = width.to_string();
        whole_columns(&mut table, &name, &input, effort.runs);
        let ids = input.hits(effort.look_ups, Order::Random);
        look_ups(&mut table, &name, "random hits", &input, &ids, effort.runs);
    }
    table
}

/// The calls on whole columns with blocks of every kind, by what the divisor of the values does.
fn divisors(effort: &Effort) -> Table {
    let mut table = Table::new("values", "reference");
    for (name, values) in Values::BY_DIVISOR {
        let input = Input::new(Shape::Mixed, effort.pairs, values);
        whole_columns(&mut table, name, &input, effort.runs);
    }
    table
}

/// Look-ups of random ids in a few blocks of so many ids each, few enough for the caches: sparse up
/// to 4000 ids, then dense, then full.
fn counts(effort: &Effort) -> Table {
    let mut table = Table::new("ids a block", "reference");
    for count in [1, 3, 20, 200, 1000, 4000, 32_768, 65_536] {
        let blocks = if count < 4096 { 16 } else { 4 };
        let input = Input::new(
            Shape::Counted(count),
            blocks * count as usize,
            Values::Any(12),
        );
        let name = count.to_string();
        let hits = input.hits(effort.look_ups, Order::Random);
        let misses = input.misses(effort.look_ups, Order::Random);
        look_ups(&mut table, &name, "hits", &input, &hits, effort.runs);
        look_ups(&mut table, &name, "misses", &input, &misses, effort.runs);
    }
    table
}

fn whole_columns(table: &mut Table, name: &str, input: &Input, runs: usize) {
    let pairs = input.ids.len();
    table.add(name, "write", "pair", pairs, calls::write(input, runs));
    table.add(name, "check", "pair", pairs, calls::check(input, runs));
    table.add(name, "read", "pair", pairs, calls::read(input, runs));
}

fn look_ups(table: &mut Table, name: &str, kind: &str, input: &Input, ids: &[u32], runs: usize) {
    let what = format!("look-up by bytes, {kind}");
    let measured = calls::by_bytes(&input.bytes, ids, runs);
    table.add(name, &what, "look-up", LOOK_UPS, measured);
    let what = format!("look-up by opened column, {kind}");
    let measured = calls::by_column(&input.bytes, ids, runs);
    table.add(name, &what, "look-up", LOOK_UPS, measured);
}

/// How the calls grow with the pairs, and the check with the bytes of each kind of block.
fn growth(effort: &Effort) -> plot::Drawing {
    let runs = effort.runs.min(21);
    let mut by_pairs = plot::Panel::new("columns of every kind of block", "pairs");
    let (mut read, mut check) = (plot::Line::new("read"), plot::Line::new("check"));
    let mut look_up = plot::Line::new("look-up, opened");
    for &pairs in effort.growth {
        let input = Input::new(Shape::Mixed, pairs, Values::Any(12));
        let n = input.ids.len() as f64;
        let ids = input.hits(effort.look_ups, Order::Random);
        read.add(n, calls::read(&input, runs).proved);
        check.add(n, calls::check(&input, runs).proved);
        let run = calls::by_column(&input.bytes, &ids, runs);
        look_up.add(n, run.proved / LOOK_UPS as f64);
    }
    by_pairs.add(read);
    by_pairs.add(check);
    by_pairs.add(look_up);

    let mut by_bytes = plot::Panel::new("check, by kind of block", "bytes");
    for (line, shape, width) in [
        (plot::Line::new("sparse"), Shape::Sparse, 12),
        (plot::Line::new("dense"), Shape::Dense, 12),
        (plot::Line::new("full"), Shape::Full, 12),
        (
            plot::Line::new("full, values equal").named_above(),
            Shape::Full,
            0,
        ),
    ] {
        let mut line = line;
        for &pairs in effort.growth {
            let input = Input::new(shape, pairs, Values::Any(width));
            line.add(input.bytes.len() as f64, calls::check(&input, runs).proved);
        }
        by_bytes.add(line);
    }
    plot::Drawing::of([by_pairs, by_bytes])
}
