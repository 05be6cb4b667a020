//! The stored number of one value: its bits, and how they give the value.

use std::fmt::Write;
use std::ops::Range;

use signalfern::Column;

use crate::codes::{entry_at, Coded};
use crate::json::Object;
use crate::packing::Packing;
use crate::runs::{self, Run};
use crate::text::{byte_at, counted};

/// A stored number that gives its value, and the value section that it stands in.
pub struct Stored<'a> {
    section: &'a [u8],
    /// Where the section stands in the file.
    start: usize,
    pub value: i64,
    pub ordinal: u64,
    number: u64,
    /// Its bits, counted from the section's first, and their order.
    bits: Range<usize>,
    packing: Packing,
    /// How the number gives the value.
    sum: String,
    /// Its run, in edition 3.
    run: Option<Run>,
    /// Whether it is a place in a table, in edition 4.
    is_code: bool,
}

/// A byte that holds some of the bits: its place in the file, the byte, and its bits with those of the number marked.
pub struct Held {
    pub place: usize,
    pub byte: u8,
    pub marked: String,
}

impl<'a> Stored<'a> {
    /// None where the bits do not give the value.
    pub fn new(column: Column<'a>, section: &'a [u8], ordinal: u64, value: i64) -> Option<Self> {
        let packing = Packing::of(column.edition().number().into())?;
        let (count, width) = (column.count(), column.width());
        let (mut run, mut table) = (None, None);
        let bits = match packing {
            Packing::Runs => {
                let own = *run.insert(Run::at(count, section, ordinal / runs::LENGTH)?);
                own.bits(count, ordinal % runs::LENGTH)?
            }
            Packing::Table => {
                let coded = Coded::new(count, width, column.divisor(), section);
                table.insert(coded).bits(ordinal)
            }
            Packing::HighFirst | Packing::LowFirst => {
                let first = (ordinal * width) as usize;
                first..first + width as usize
            }
        };
        let number = packing.number(section, bits.clone());
        let smallest = run.map_or(column.smallest(), |run| run.smallest);
        let sum = match &table {
            Some(table) => entry_of(table, number, value)?,
            None => sum_of(smallest, column.divisor(), number, value)?,
        };
        Some(Self {
            section,
            start: section.as_ptr() as usize - column.bytes().as_ptr() as usize,
            value,
            ordinal,
            number,
            bits,
            packing,
            sum,
            run,
            is_code: table.is_some(),
        })
    }

    /// The value section of a column.
    pub fn section_of(column: Column<'a>) -> &'a [u8] {
        let start = (column.start() + column.id_bytes()) as usize;
        &column.bytes()[start..][..column.value_bytes() as usize]
    }

    /// The bytes that hold its bits.
    pub fn held(&self) -> Vec<Held> {
        if self.bits.is_empty() {
            return Vec::new();
        }
        let bytes = self.bits.start / 8..=(self.bits.end - 1) / 8;
        let held = |at: usize| Held {
            place: self.start + at,
            byte: self.section[at],
            marked: self.packing.marked(self.section, at, &self.bits),
        };
        bytes.map(held).collect()
    }

    /// Where the section stands, what the run is, and how the number gives the value.
    pub fn sentences(&self) -> Vec<String> {
        let run = self.run.map(|run| {
            let Run {
                index,
                smallest,
                greatest,
                ..
            } = run;
            let (bits, at) = (counted(run.width, "bit"), self.start + run.entry() as usize);
            let at = byte_at(at);
            format!(
                "run {index}: from {smallest} to {greatest}, {bits} for each value, told at {at}"
            )
        });
        if self.bits.is_empty() {
            let (of_run, value) = (self.run.map_or("", |_| " of the run"), self.value);
            let none = format!("no bits are stored: every value{of_run} is {value}");
            return run.into_iter().chain([none]).collect();
        }
        let (bytes, at) = (
            counted(self.section.len() as u64, "byte"),
            byte_at(self.start),
        );
        let section = format!("value section: {bytes}, from {at} on");
        let (ordinal, number, first) = (self.ordinal, self.number, self.bits.start);
        let (bits, sum) = (counted(self.bits.len() as u64, "bit"), &self.sum);
        let stored = format!(
            "stored number {ordinal}: {number}, in {bits} from bit {first} of the section on; {sum}"
        );
        [section].into_iter().chain(run).chain([stored]).collect()
    }

    /// The bytes of the table's entry, and where.
    pub fn entry(&self) -> Option<String> {
        let at = self.is_code.then(|| entry_at(self.number as usize))?;
        let place = byte_at(self.start + at);
        let bytes: Vec<String> = (self.section[at..].iter().take(8))
            .map(|byte| format!("{byte:02X}"))
            .collect();
        let (bytes, number) = (bytes.join(" "), self.number);
        Some(format!("{place}: {bytes}, entry {number}, low byte first"))
    }

    /// All lines about it.
    pub fn lines(&self, indent: &str) -> String {
        let mut out = String::new();
        for line in self.sentences() {
            // Writing to a string cannot fail.
            let _ = writeln!(out, "{indent}{line}");
        }
        for Held {
            place,
            byte,
            marked,
        } in self.held()
        {
            let _ = writeln!(out, "{indent}{}: {byte:02X}  {marked}", byte_at(place));
        }
        if let Some(entry) = self.entry() {
            let _ = writeln!(out, "{indent}{entry}");
        }
        out
    }

    /// Puts all of it into an object.
    pub fn json(&self, object: Object) -> Object {
        let section = Object::new().number("start", self.start as u64);
        let section = section.number("bytes", self.section.len() as u64);
        let bits = Object::new().number("first", self.bits.start as u64);
        let bits = bits.number("count", self.bits.len() as u64);
        let held = self.held().into_iter().map(|held| {
            let object = Object::new().number("place", held.place as u64);
            (object.number("byte", held.byte)).text("bits", &held.marked)
        });
        (object
            .long("value", self.value)
            .long("ordinal", self.ordinal))
        .object("section", section)
        .long("stored", self.number)
        .object("bits", bits)
        .text("sum", &self.sum)
        .objects("at", held)
    }
}

fn sum_of(smallest: i64, divisor: u64, number: u64, value: i64) -> Option<String> {
    let sum = i128::from(smallest) + i128::from(divisor) * i128::from(number);
    (sum == i128::from(value)).then(|| format!("{smallest} + {divisor} * {number} = {value}"))
}

fn entry_of(table: &Coded, number: u64, value: i64) -> Option<String> {
    let is_entry = table.table.get(number as usize) == Some(&value);
    is_entry.then(|| format!("entry {number} of the table is {value}"))
}
