//! Tables of a report.

use std::fmt::Write;

use super::{capital, escaped};
use crate::codes::Coded;
use crate::header::{smallest, Header, NAMES};
use crate::runs::Run;
use crate::show;
use crate::stats::{percent, Stats};

/// Rows of a table at most.
const MOST_ROWS: usize = 400;

// Writing to a string cannot fail, so the results below are dropped.

pub fn header_table(out: &mut String, header: &Header) {
    let len = header.len();
    let _ = writeln!(out, "<section>\n<h2>Header ({len} bytes)</h2>\n<table>\n<thead><tr><th scope=\"col\">Number</th>\
        <th scope=\"col\" class=\"number\">Value</th><th scope=\"col\">Meaning</th></tr></thead>\n<tbody>");
    for (index, (name, number)) in NAMES.iter().zip(header.numbers()).enumerate() {
        let value = match index {
            6 => smallest(number).to_string(),
            _ => number.to_string(),
        };
        let remark = escaped(&show::remark(header.packing(), index, number));
        let _ = writeln!(
            out,
            "<tr><th scope=\"row\">{}</th><td class=\"number\">{value}</td><td>{remark}</td></tr>",
            escaped(name)
        );
    }
    out.push_str("</tbody>\n</table>\n</section>\n");
}

/// A table of numbers: the titles of its columns, and its rows. Of a long one the middle is left out.
pub fn numbers(out: &mut String, titles: &[&str], rows: &[Vec<String>]) {
    out.push_str("<table>\n<thead><tr>");
    // Words stand to the left, numbers to the right.
    let is_word = |index: usize| index == 0 || ["Kind", "Spoken by"].contains(&titles[index]);
    for (index, title) in titles.iter().enumerate() {
        let class = if is_word(index) {
            ""
        } else {
            " class=\"number\""
        };
        let _ = write!(out, "<th scope=\"col\"{class}>{}</th>", escaped(title));
    }
    out.push_str("</tr></thead>\n<tbody>\n");
    let middle = rows.len().saturating_sub(MOST_ROWS);
    for (index, row) in rows.iter().enumerate() {
        if middle > 0 && index == MOST_ROWS / 2 {
            let span = titles.len();
            let _ = writeln!(
                out,
                "<tr><td colspan=\"{span}\">{middle} rows are left out</td></tr>"
            );
        }
        if (MOST_ROWS / 2..MOST_ROWS / 2 + middle).contains(&index) {
            continue;
        }
        out.push_str("<tr>");
        for (index, cell) in row.iter().enumerate() {
            let _ = match index {
                0 => write!(out, "<th scope=\"row\">{}</th>", escaped(cell)),
                _ if is_word(index) => write!(out, "<td>{}</td>", escaped(cell)),
                _ => write!(out, "<td class=\"number\">{}</td>", escaped(cell)),
            };
        }
        out.push_str("</tr>\n");
    }
    out.push_str("</tbody>\n</table>\n");
}

pub fn block_table(out: &mut String, rows: &[show::blocks::Row]) {
    if rows.is_empty() {
        return;
    }
    out.push_str("<section>\n<h3>Blocks, neighbours of one kind together</h3>\n");
    let rows: Vec<Vec<String>> = (rows.iter())
        .map(|row| {
            let counts = [row.blocks(), row.ids, row.bytes].map(|count| count.to_string());
            [row.numbers(), row.kind.name().to_string()]
                .into_iter()
                .chain(counts)
                .collect()
        })
        .collect();
    numbers(out, &["Block", "Kind", "Blocks", "Ids", "Bytes"], &rows);
    out.push_str("</section>\n");
}

pub fn quantiles(out: &mut String, stats: &Stats) {
    let mut rows = vec![vec!["Smallest".to_string(), stats.smallest.to_string()]];
    for (part, value) in &stats.quantiles {
        rows.push(vec![capital(&percent(*part)), value.to_string()]);
    }
    rows.push(vec!["Greatest".to_string(), stats.greatest.to_string()]);
    rows.push(vec!["Mean".to_string(), stats.mean()]);
    numbers(out, &["Part of all scores at or below", "Score"], &rows);
}

pub fn run_table(out: &mut String, header: &Header, bytes: &[u8]) {
    out.push_str("<section>\n<h2>Runs of 16384 scores</h2>\n");
    let rows: Vec<Vec<String>> = Run::all(header.count, header.values_in(bytes))
        .map(|run| {
            let cells = [
                i128::from(run.first()),
                run.smallest.into(),
                run.greatest.into(),
            ];
            let cells = cells
                .into_iter()
                .chain([run.start.into(), run.width.into()]);
            cells.map(|cell| cell.to_string()).collect()
        })
        .collect();
    numbers(
        out,
        &[
            "First ordinal",
            "Smallest",
            "Greatest",
            "Start",
            "Width in bits",
        ],
        &rows,
    );
    out.push_str("</section>\n");
}

pub fn value_table(out: &mut String, header: &Header, bytes: &[u8]) {
    out.push_str("<section>\n<h2>Table of distinct scores</h2>\n");
    let coded = Coded::of(header, bytes);
    let entries = coded.table.iter().zip(coded.uses().0).enumerate();
    let rows: Vec<Vec<String>> = entries
        .map(|(code, (value, pairs))| vec![code.to_string(), value.to_string(), pairs.to_string()])
        .collect();
    numbers(out, &["Code", "Score", "Pairs"], &rows);
    out.push_str("</section>\n");
}
