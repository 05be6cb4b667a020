//! The blocks of ids, neighbours of one kind together.

use std::fmt::Write;

use super::{as_far, first_and_last};
use crate::blocks::{rank_bytes, Block, Kind, Section, BITMAP, HEAD};
use crate::json::Object;

// Writing to a string cannot fail, so the results below are dropped.

/// Neighbouring blocks of one kind, which make a row.
#[derive(Clone, Copy, Debug, PartialEq, Eq)]
pub struct Row {
    pub kind: Kind,
    first: u64,
    last: u64,
    pub ids: u64,
    pub bytes: u64,
}

impl Row {
    pub fn blocks(&self) -> u64 {
        self.last - self.first + 1
    }

    /// The numbers of its blocks.
    pub fn numbers(&self) -> String {
        match self.first == self.last {
            true => self.first.to_string(),
            false => format!("{} to {}", self.first, self.last),
        }
    }

    pub fn object(&self) -> Object {
        let object = Object::new()
            .number("first", self.first)
            .number("last", self.last);
        let object = object.text("kind", self.kind.name());
        object.number("ids", self.ids).number("bytes", self.bytes)
    }

    fn put(&self, out: &mut String) {
        let numbers = self.numbers();
        let counts = [self.blocks(), self.ids, self.bytes];
        row(out, &numbers, self.kind.name(), counts);
    }
}

/// Bytes of each part of the blocks.
#[derive(Debug, Default, PartialEq, Eq)]
pub struct Sizes {
    pub heads: u64,
    pub places: u64,
    pub ranks: u64,
    pub bitmaps: u64,
}

pub fn rows_of(section: &Section) -> (Vec<Row>, Sizes) {
    let mut rows: Vec<Row> = Vec::new();
    let mut sizes = Sizes::default();
    for block in section.walk() {
        let Block {
            number,
            count,
            kind,
            ..
        } = block;
        let bytes = HEAD + block.data(section.power);
        sizes.heads += HEAD;
        match kind {
            Kind::Sparse => sizes.places += 2 * count,
            Kind::Dense => {
                sizes.ranks += rank_bytes(section.power);
                sizes.bitmaps += BITMAP;
            }
            Kind::All => {}
        }
        match rows.last_mut() {
            Some(row) if row.kind == kind && row.last + 1 == number => {
                row.last = number;
                row.ids += count;
                row.bytes += bytes;
            }
            _ => rows.push(Row {
                kind,
                first: number,
                last: number,
                ids: count,
                bytes,
            }),
        }
    }
    (rows, sizes)
}

pub fn put(out: &mut String, rows: &[Row], mark: &str) {
    let total: u64 = rows.iter().map(Row::blocks).sum();
    let _ = writeln!(out, "\nBlocks of 65536 ids ({total}{})", as_far(mark));
    if rows.is_empty() {
        return;
    }
    let _ = writeln!(
        out,
        "  {:<16} {:<7} {:>7} {:>12} {:>12}",
        "block", "kind", "blocks", "ids", "bytes"
    );
    let left_out = |middle: &[Row]| {
        let blocks: u64 = middle.iter().map(Row::blocks).sum();
        format!("{blocks} blocks in {} rows", middle.len())
    };
    first_and_last(out, rows, |out, row| row.put(out), left_out);
    for kind in Kind::EACH {
        let (mut blocks, mut ids, mut bytes) = (0, 0, 0);
        for row in rows.iter().filter(|row| row.kind == kind) {
            blocks += row.blocks();
            ids += row.ids;
            bytes += row.bytes;
        }
        row(out, "together", kind.name(), [blocks, ids, bytes]);
    }
}

fn row(out: &mut String, name: &str, kind: &str, [blocks, ids, bytes]: [u64; 3]) {
    let _ = writeln!(
        out,
        "  {name:<16} {kind:<7} {blocks:>7} {ids:>12} {bytes:>12}"
    );
}
