//! Drawings of a report, as SVG within the page.

use std::fmt::Write;

use super::escaped;
use crate::blocks::{Kind, Section};
use crate::show::share;
use crate::stats::{percent, Bin, Stats};

// Writing to a string cannot fail, so the results below are dropped.

/// Widths in the units of a drawing: of all, and of a bar among the parts.
const WIDTH: u64 = 720;
const BAR: u128 = 260;
/// Cells of the map at most, and in a row.
const MOST_CELLS: u64 = 2048;
const ROW: u64 = 64;
/// Height of the distribution.
const HEIGHT: u64 = 200;
/// Ids of a block.
const BLOCK: u64 = 65_536;

const BLUE: &str = "#0b5394";

/// Where the bytes go: a table with a bar in each row.
pub fn parts(out: &mut String, parts: &[(&str, u128)], total: u128) {
    let longest = parts.iter().map(|part| part.1).max().unwrap_or(0).max(1);
    out.push_str(
        "<table>\n<thead><tr><th scope=\"col\">Part</th><th scope=\"col\" class=\"number\">Bytes</th>\
         <th scope=\"col\" class=\"number\">Share</th><th scope=\"col\" class=\"bar\"></th></tr></thead>\n<tbody>\n",
    );
    for (name, bytes) in parts {
        let width = (bytes * BAR).div_ceil(longest);
        let share = share(*bytes, total);
        let _ = writeln!(
            out,
            "<tr><th scope=\"row\">{}</th><td class=\"number\">{bytes}</td><td class=\"number\">{}</td>\
             <td style=\"width:45%\"><svg viewBox=\"0 0 {BAR} 12\" aria-hidden=\"true\">\
             <rect width=\"{width}\" height=\"12\" fill=\"{BLUE}\"/></svg></td></tr>",
            escaped(name),
            share.trim()
        );
    }
    out.push_str("</tbody>\n</table>\n");
}

/// Some neighbouring blocks.
#[derive(Clone, Copy, Default)]
struct Cell {
    /// Ids in blocks of each kind.
    ids: [u64; 3],
}

impl Cell {
    fn all(&self) -> u64 {
        self.ids.iter().sum()
    }

    /// The kind that holds the most of its ids.
    fn kind(&self) -> Kind {
        let most = (0..3).max_by_key(|&kind| self.ids[kind]).unwrap_or(0);
        Kind::EACH[most]
    }
}

fn index_of(kind: Kind) -> usize {
    Kind::EACH.iter().position(|it| *it == kind).unwrap_or(0)
}

/// Patterns as well as colours, so that a print without colour tells them apart.
const PATTERNS: &str = r##"<defs>
<pattern id="sparse" width="3" height="3" patternUnits="userSpaceOnUse">
<rect width="3" height="3" fill="#cfe3f5"/><circle cx="1.5" cy="1.5" r="1" fill="#0b5394"/></pattern>
<pattern id="dense" width="4" height="4" patternUnits="userSpaceOnUse" patternTransform="rotate(45)">
<rect width="4" height="4" fill="#f6c9a0"/><rect width="2" height="4" fill="#a84300"/></pattern>
<pattern id="all" width="4" height="4" patternUnits="userSpaceOnUse"><rect width="4" height="4" fill="#0b6b3a"/></pattern>
</defs>
"##;

/// The id space from block 0 to the last block that holds an id, a cell for one block or for some.
struct Map {
    cells: Vec<Cell>,
    /// Blocks of a cell, and the last block.
    per: u64,
    last: u64,
    /// Cells in a row, and the size of one with what parts it from the next.
    row: u64,
    size: u64,
}

pub fn map(out: &mut String, section: Section) {
    let Some(last) = section.walk().map(|block| block.number).max() else {
        out.push_str("<p>There is no id.</p>\n");
        return;
    };
    let map = Map::of(section, last);
    let height = (map.cells.len() as u64).div_ceil(map.row) * map.size;
    let used = map.cells.iter().filter(|cell| cell.all() > 0).count();
    let _ = writeln!(
        out,
        "<figure>\n<svg viewBox=\"0 0 {WIDTH} {height}\" role=\"img\" aria-label=\"Map of the ids: {used} of {} cells \
         hold ids\">\n{PATTERNS}",
        map.cells.len()
    );
    for index in 0..map.cells.len() as u64 {
        map.put_cell(out, index);
    }
    out.push_str("</svg>\n");
    legend(out);
    let each = match map.per {
        1 => "a block".to_string(),
        per => format!("{per} blocks"),
    };
    let _ = writeln!(
        out,
        "<figcaption>A cell is {each} of 65536 ids, from block 0 (top left) to block {last}; it is filled as far as its \
         ids are listed, and at least a little where there is one.</figcaption>\n</figure>"
    );
}

impl Map {
    fn of(section: Section, last: u64) -> Self {
        let per = (last + 1).div_ceil(MOST_CELLS);
        let mut cells = vec![Cell::default(); (last + 1).div_ceil(per) as usize];
        for block in section.walk() {
            cells[(block.number / per) as usize].ids[index_of(block.kind)] += block.count;
        }
        let row = ROW.min(cells.len() as u64).max(8);
        Self {
            cells,
            per,
            last,
            row,
            size: WIDTH / row,
        }
    }

    fn put_cell(&self, out: &mut String, index: u64) {
        let (size, per) = (self.size, self.per);
        let (x, y, inner) = (index % self.row * size, index / self.row * size, size - 1);
        let _ = write!(
            out,
            "<rect x=\"{x}\" y=\"{y}\" width=\"{inner}\" height=\"{inner}\" fill=\"#f4f4f4\" stroke=\"#bbb\" \
             stroke-width=\".5\"/>"
        );
        let cell = &self.cells[index as usize];
        let ids = cell.all();
        if ids > 0 {
            let filled = (ids * inner)
                .div_ceil(per * BLOCK)
                .clamp(2.min(inner), inner);
            let (top, kind) = (y + inner - filled, cell.kind().name());
            let blocks = match per {
                1 => format!("block {index}"),
                _ => format!(
                    "blocks {} to {}",
                    index * per,
                    ((index + 1) * per - 1).min(self.last)
                ),
            };
            let _ = write!(
                out,
                "<rect x=\"{x}\" y=\"{top}\" width=\"{inner}\" height=\"{filled}\" fill=\"url(#{kind})\">\
                 <title>{blocks}: {ids} ids, {kind}</title></rect>"
            );
        }
        out.push('\n');
    }
}

fn legend(out: &mut String) {
    let kinds = [
        ("sparse", "sparse, up to 4095 ids"),
        ("dense", "dense, 4096 to 65535"),
        ("all", "all 65536"),
    ];
    out.push_str("<svg viewBox=\"0 0 720 22\" aria-label=\"Legend\" role=\"img\">\n");
    for (index, (kind, about)) in kinds.iter().enumerate() {
        let x = 180 * index;
        let text = x + 18;
        let _ = writeln!(
            out,
            "<rect x=\"{x}\" y=\"8\" width=\"12\" height=\"12\" fill=\"url(#{kind})\"/><text x=\"{text}\" y=\"18\">{about}</text>"
        );
    }
    out.push_str(
        "<rect x=\"540.5\" y=\"8.5\" width=\"11\" height=\"11\" fill=\"#f4f4f4\" stroke=\"#bbb\"/>\
         <text x=\"558\" y=\"18\">no id</text>\n</svg>\n",
    );
}

/// How many scores lie in each of some ranges.
pub fn distribution(out: &mut String, stats: &Stats) {
    let most = stats
        .bins
        .iter()
        .map(|bin| bin.count)
        .max()
        .unwrap_or(0)
        .max(1);
    let bins = stats.bins.len() as u64;
    let left = 8 * most.to_string().len() as u64 + 6;
    let step = ((WIDTH - left) as f64 / bins as f64).min(60.0);
    let median = stats.quantiles.iter().find(|(part, _)| *part == 500);
    let (smallest, greatest) = (stats.smallest, stats.greatest);
    let _ = writeln!(
        out,
        "<figure>\n<svg viewBox=\"0 0 {WIDTH} {}\" role=\"img\" aria-label=\"Distribution of the scores: from {smallest} \
         to {greatest}, {} {}\">",
        HEIGHT + 40,
        percent(500),
        median.map_or(0, |(_, value)| *value)
    );
    grid(out, left, most);
    for (index, bin) in stats.bins.iter().enumerate() {
        bar(out, left as f64 + index as f64 * step, step, most, bin);
    }
    let end = left as f64 + bins as f64 * step;
    let greatest = if bins > 1 {
        greatest.to_string()
    } else {
        String::new()
    };
    let _ = writeln!(
        out,
        "<text x=\"{left}\" y=\"{0}\">{smallest}</text><text x=\"{end:.1}\" y=\"{0}\" text-anchor=\"end\">{greatest}</text>\n\
         </svg>",
        HEIGHT + 28
    );
    let _ = writeln!(
        out,
        "<figcaption>How many of the {} scores lie in each of {bins} ranges of equal width, from the smallest to the \
         greatest.</figcaption>\n</figure>",
        stats.count
    );
}

/// Lines at none, half and all of the greatest count.
fn grid(out: &mut String, left: u64, most: u64) {
    for part in [0, 1, 2] {
        let (y, count) = (10 + HEIGHT - part * HEIGHT / 2, most * part / 2);
        let _ = writeln!(
            out,
            "<line x1=\"{left}\" x2=\"{WIDTH}\" y1=\"{y}\" y2=\"{y}\" stroke=\"#ccc\"/>\
             <text x=\"{}\" y=\"{}\" text-anchor=\"end\">{count}</text>",
            left - 5,
            y + 4
        );
    }
}

fn bar(out: &mut String, x: f64, step: f64, most: u64, bin: &Bin) {
    let height = (u128::from(bin.count) * u128::from(HEIGHT)).div_ceil(most.into()) as u64;
    let (y, width) = (10 + HEIGHT - height, (step - 1.0).max(1.0));
    let _ = writeln!(
        out,
        "<rect x=\"{x:.1}\" y=\"{y}\" width=\"{width:.1}\" height=\"{height}\" fill=\"{BLUE}\">\
         <title>{} to {}: {}</title></rect>",
        bin.low, bin.high, bin.count
    );
}
