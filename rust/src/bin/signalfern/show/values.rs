//! What an edition tells of its values beside the header: the runs of edition 3, the table of edition 4.

use std::fmt::Write;

use super::{as_far, bar, first_and_last, share};
use crate::codes::{self, Coded};
use crate::header::Header;
use crate::packing::Packing;
use crate::runs::{self, Run};
use crate::text::counted;

// Writing to a string cannot fail, so the results below are dropped.

/// Draws it, where there is something; of a header that keeps the rules.
pub fn put(out: &mut String, header: &Header, bytes: &[u8], mark: &str) {
    match header.packing() {
        Some(Packing::Runs) => {
            let runs: Vec<Run> = Run::all(header.count, header.values_in(bytes)).collect();
            value_runs(out, &runs, mark);
        }
        Some(Packing::Table) => value_table(out, &Coded::of(header, bytes), mark),
        _ => {}
    }
}

/// The part of the value section that stands before the stored numbers: its name and its bytes.
pub fn front(header: &Header) -> Option<(&'static str, u64)> {
    match header.packing()? {
        Packing::Runs => Some(("run directory", runs::directory_bytes(header.count))),
        Packing::Table => Some(("value table", codes::table_bytes(header.divisor))),
        Packing::HighFirst | Packing::LowFirst => None,
    }
}

/// The runs of edition 3: what the directory says of each, and a bar of its width.
fn value_runs(out: &mut String, runs: &[Run], mark: &str) {
    let _ = writeln!(
        out,
        "\nRuns of {} values ({}{})",
        runs::LENGTH,
        runs.len(),
        as_far(mark)
    );
    if runs.is_empty() {
        return;
    }
    let row = |ordinal: &str, [smallest, greatest, start, width]: [String; 4], bar: &str| {
        let row =
            format!("  {ordinal:>10} {smallest:>20} {greatest:>20} {start:>10} {width:>5}  {bar}");
        format!("{}\n", row.trim_end())
    };
    let title = ["smallest", "greatest", "start", "width"].map(String::from);
    out.push_str(&row("ordinal", title, ""));
    let put = |out: &mut String, run: &Run| {
        let numbers = [
            run.smallest.to_string(),
            run.greatest.to_string(),
            run.start.to_string(),
            run.width.to_string(),
        ];
        // A sign for two bits; of a damaged column no more than there can be.
        let bar = "#".repeat(run.width.min(64).div_ceil(2) as usize);
        out.push_str(&row(&run.first().to_string(), numbers, &bar));
    };
    first_and_last(out, runs, put, |middle| format!("{} runs", middle.len()));
}

/// The table of edition 4: each code and its value, and how many pairs have it.
fn value_table(out: &mut String, coded: &Coded, mark: &str) {
    let (uses, without) = coded.uses();
    let _ = writeln!(
        out,
        "\nTable of distinct values ({}{})",
        coded.table.len(),
        as_far(mark)
    );
    let _ = writeln!(out, "  {:>4} {:>20} {:>12}", "code", "value", "pairs");
    let most = uses.iter().copied().max().unwrap_or(0).max(1).into();
    let rows: Vec<(usize, (&i64, u64))> = coded.table.iter().zip(uses).enumerate().collect();
    let put = |out: &mut String, &(code, (value, pairs)): &(usize, (&i64, u64))| {
        let (share, bar) = (
            share(pairs.into(), coded.count.into()),
            bar(pairs.into(), most),
        );
        let row = format!("  {code:>4} {value:>20} {pairs:>12} {share}  {bar}");
        let _ = writeln!(out, "{}", row.trim_end());
    };
    first_and_last(out, &rows, put, |middle| format!("{} codes", middle.len()));
    if without > 0 {
        let _ = writeln!(
            out,
            "  {} with a code past the table",
            counted(without, "pair")
        );
    }
}
