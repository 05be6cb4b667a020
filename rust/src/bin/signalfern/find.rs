//! find: the pairs with a value in a range; by the directory of edition 3, where there is one.

use std::io::{self, Write};
use std::os::unix::ffi::OsStrExt;

use signalfern::{Column, Edition, Refusal};

use crate::answers::put_line;
use crate::arguments::Arguments;
use crate::failure::Failure;
use crate::json::Object;
use crate::load::Loaded;
use crate::output::{print, print_with};
use crate::scan::{Pairs, Scan, Stop};
use crate::words::parse_value;

/// Bytes gathered before they are handed on.
const PIECE: usize = 1 << 16;

/// A range of values, both ends included.
#[derive(Clone, Copy)]
struct Range {
    low: i64,
    high: i64,
    json: bool,
}

/// A pair with its ordinal.
#[derive(Clone, Copy)]
struct Found {
    id: u32,
    value: i64,
    ordinal: u64,
}

pub fn run(mut arguments: Arguments) -> Result<(), Failure> {
    let given = arguments.digest("digest")?;
    let path = arguments.file("column")?;
    let (low, high) = (value(&mut arguments)?, value(&mut arguments)?);
    arguments.finish()?;
    if low > high {
        return Err(arguments.usage(format!("LOW is above HIGH: {low} and {high}")));
    }
    let (all, count) = (arguments.has("all"), arguments.has("count"));
    if all && count {
        return Err(arguments.usage("--all or --count: one of them"));
    }
    let json = arguments.has("json");
    let range = Range { low, high, json };
    let loaded = Loaded::sound(&path, given)?;
    let scan = Scan::of(&loaded)?;
    match (count, all) {
        (true, _) => range.print_count(&scan),
        (_, true) => range.print_all(&scan),
        _ => range.print_first(&scan),
    }
}

/// The next plain word, which must be a value.
fn value(arguments: &mut Arguments) -> Result<i64, Failure> {
    let Some(word) = arguments.next() else {
        return Err(arguments.usage("two values are to be named: LOW and HIGH"));
    };
    parse_value(word.as_bytes()).map_err(|wrong| arguments.usage(wrong.parts().1))
}

/// The pairs with a value in a range, in order.
enum Matches<'a> {
    /// From an ordinal on, by the directory.
    Directory(Column<'a>, Range, u64),
    /// By a scan of all pairs.
    Scanned(Range, std::iter::Zip<std::ops::RangeFrom<u64>, Pairs<'a>>),
}

impl<'a> Matches<'a> {
    fn of(scan: &Scan<'a>, range: Range) -> Self {
        match scan.column().edition() {
            Edition::Runs => Self::Directory(scan.column(), range, 0),
            _ => Self::Scanned(range, (0..).zip(scan.pairs())),
        }
    }

    fn step(&mut self) -> Result<Option<Found>, Stop> {
        match self {
            Self::Directory(column, range, from) => {
                let Some(ordinal) = column.first_between_from(*from, range.low, range.high)? else {
                    return Ok(None);
                };
                *from = ordinal + 1;
                // On bytes that the check accepted there is such a pair, and its value is in the range.
                let pair = column.pair_at(ordinal)?;
                let pair = pair.filter(|pair| range.has(pair.value));
                let pair = pair.ok_or(Stop::Refused(Refusal::Broken))?;
                let (id, value) = (pair.id, pair.value);
                Ok(Some(Found { id, value, ordinal }))
            }
            Self::Scanned(range, pairs) => {
                for (ordinal, pair) in pairs {
                    let (id, value) = pair?;
                    if range.has(value) {
                        return Ok(Some(Found { id, value, ordinal }));
                    }
                }
                Ok(None)
            }
        }
    }
}

impl Matches<'_> {
    /// How many there are. By the directory no id is needed.
    fn counted(self) -> Result<u64, Stop> {
        let mut count = 0;
        match self {
            Self::Directory(column, Range { low, high, .. }, mut from) => {
                while let Some(ordinal) = column.first_between_from(from, low, high)? {
                    (count, from) = (count + 1, ordinal + 1);
                }
            }
            Self::Scanned(..) => {
                for found in self {
                    found?;
                    count += 1;
                }
            }
        }
        Ok(count)
    }
}

impl Iterator for Matches<'_> {
    type Item = Result<Found, Stop>;

    fn next(&mut self) -> Option<Self::Item> {
        self.step().transpose()
    }
}

impl Range {
    fn has(&self, value: i64) -> bool {
        (self.low..=self.high).contains(&value)
    }

    fn print_count(&self, scan: &Scan) -> Result<(), Failure> {
        let count = Matches::of(scan, *self).counted();
        print(&self.counted(count.map_err(|stop| scan.failure(stop))?))
    }

    fn print_first(&self, scan: &Scan) -> Result<(), Failure> {
        let first = Matches::of(scan, *self).next().transpose();
        print(&self.line(first.map_err(|stop| scan.failure(stop))?))
    }

    fn print_all(&self, scan: &Scan) -> Result<(), Failure> {
        let mut stopped = None;
        print_with(|out| {
            stopped = self.put_all(out, Matches::of(scan, *self))?;
            Ok(())
        })?;
        stopped.map_or(Ok(()), |stop| Err(scan.failure(stop)))
    }

    /// Gives what stopped the reading, if something did.
    fn put_all(&self, out: &mut dyn Write, matches: Matches) -> io::Result<Option<Stop>> {
        let (mut any, mut buffer) = (false, Vec::new());
        for found in matches {
            let Found { id, value, ordinal } = match found {
                Ok(found) => found,
                Err(stop) => return Ok(Some(stop)),
            };
            any = true;
            match self.json {
                false => put_line(&mut buffer, id, Some((value, ordinal))),
                true => {
                    let line = self.line(Some(Found { id, value, ordinal }));
                    buffer.extend(line.bytes());
                }
            }
            if buffer.len() > PIECE {
                out.write_all(&buffer)?;
                buffer.clear();
            }
        }
        out.write_all(&buffer)?;
        if !any {
            out.write_all(self.line(None).as_bytes())?;
        }
        Ok(None)
    }

    fn object(&self) -> Object {
        Object::new().long("low", self.low).long("high", self.high)
    }

    fn counted(&self, matches: u64) -> String {
        match self.json {
            false => format!("{matches}\n"),
            true => (self.object().text("answer", "counted"))
                .number("count", matches)
                .line(),
        }
    }

    fn line(&self, found: Option<Found>) -> String {
        let Self { low, high, json } = *self;
        match (found, json) {
            (Some(it), false) => format!("{} {} ordinal {}\n", it.id, it.value, it.ordinal),
            (None, false) => format!("none from {low} to {high}\n"),
            (Some(it), true) => (self.object().text("answer", "found").number("id", it.id))
                .long("value", it.value)
                .long("ordinal", it.ordinal)
                .line(),
            (None, true) => self.object().text("answer", "none").line(),
        }
    }
}
