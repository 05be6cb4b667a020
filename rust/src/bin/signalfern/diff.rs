//! diff: which pairs differ between two columns.

use std::io::{self, Write};
use std::path::Path;

use crate::arguments::Arguments;
use crate::failure::{Failure, REFUSED, TROUBLE};
use crate::json::Object;
use crate::load::Loaded;
use crate::output::print_with;
use crate::scan::{Pairs, Scan, Stop};

/// The status where some pairs differ.
const DIFFERENT: u8 = REFUSED;

/// A pair that is not the same in both.
#[derive(Clone, Copy)]
enum Change {
    Added(u32, i64),
    Removed(u32, i64),
    Changed(u32, i64, i64),
}

/// Goes through both columns side by side; the same pairs are told apart.
struct Changes<'a> {
    old: std::iter::Peekable<Pairs<'a>>,
    new: std::iter::Peekable<Pairs<'a>>,
}

#[derive(Default)]
struct Counts {
    added: u64,
    removed: u64,
    changed: u64,
    same: u64,
}

pub fn run(mut arguments: Arguments) -> Result<(), Failure> {
    let limit = arguments
        .number("limit", "count of lines")?
        .unwrap_or(u64::MAX);
    let (a, b) = (arguments.file("column")?, arguments.file("second column")?);
    arguments.finish()?;
    arguments.one_standard([&a, &b])?;
    let (old, new) = (load(&a)?, load(&b)?);
    let (old, new) = (Scan::of(&old)?, Scan::of(&new)?);
    let counts = Counts::of(&old, &new).map_err(|stop| as_trouble(old.failure(stop)))?;
    let (quiet, json) = (arguments.has("quiet"), arguments.has("json"));
    let printed = match quiet {
        true => Ok(()),
        false => print_with(|out| {
            out.write_all(counts.line(json).as_bytes())?;
            put(out, Changes::of(&old, &new), limit, json)
        }),
    };
    match printed {
        // Whoever reads no further may still ask for the status.
        Ok(()) | Err(Failure::OutputClosed) if counts.differ() => Err(Failure::Said(DIFFERENT)),
        result => result,
    }
}

/// A refused file is trouble here, since 1 says that pairs differ.
fn load(path: &Path) -> Result<Loaded, Failure> {
    Loaded::sound(path, None).map_err(as_trouble)
}

fn as_trouble(failure: Failure) -> Failure {
    match failure {
        Failure::Refused(message) => Failure::Trouble(message),
        Failure::Said(_) => Failure::Said(TROUBLE),
        other => other,
    }
}

fn put(out: &mut dyn Write, changes: Changes, limit: u64, json: bool) -> io::Result<()> {
    let mut left = limit;
    for change in changes {
        let change = change.map_err(|_| io::Error::other("the reading stopped"))?;
        let Some(change) = change else {
            continue;
        };
        if left == 0 {
            break;
        }
        left -= 1;
        out.write_all(change.line(json).as_bytes())?;
    }
    Ok(())
}

impl<'a> Changes<'a> {
    fn of(old: &'a Scan, new: &'a Scan) -> Self {
        Self {
            old: old.pairs().peekable(),
            new: new.pairs().peekable(),
        }
    }

    fn step(&mut self) -> Result<Option<Option<Change>>, Stop> {
        let old = self.old.peek().copied().transpose()?;
        let new = self.new.peek().copied().transpose()?;
        let (passes_old, passes_new, change) = match (old, new) {
            (None, None) => return Ok(None),
            (Some((id, was)), Some((other, is))) if id == other => {
                let change = (was != is).then_some(Change::Changed(id, was, is));
                (true, true, change)
            }
            (Some((id, was)), new) if new.is_none_or(|(other, _)| id < other) => {
                (true, false, Some(Change::Removed(id, was)))
            }
            (_, Some((id, is))) => (false, true, Some(Change::Added(id, is))),
            (Some(_), None) => return Ok(None),
        };
        if passes_old {
            self.old.next();
        }
        if passes_new {
            self.new.next();
        }
        Ok(Some(change))
    }
}

impl Iterator for Changes<'_> {
    /// A change, or none for a pair that is the same in both.
    type Item = Result<Option<Change>, Stop>;

    fn next(&mut self) -> Option<Self::Item> {
        self.step().transpose()
    }
}

impl Counts {
    fn of(old: &Scan, new: &Scan) -> Result<Self, Stop> {
        let mut counts = Self::default();
        for change in Changes::of(old, new) {
            match change? {
                None => counts.same += 1,
                Some(Change::Added(..)) => counts.added += 1,
                Some(Change::Removed(..)) => counts.removed += 1,
                Some(Change::Changed(..)) => counts.changed += 1,
            }
        }
        Ok(counts)
    }

    fn differ(&self) -> bool {
        self.added + self.removed + self.changed > 0
    }

    fn line(&self, json: bool) -> String {
        let Self {
            added,
            removed,
            changed,
            same,
        } = self;
        match json {
            false => {
                format!("{added} added, {removed} removed, {changed} changed, {same} the same\n")
            }
            true => (Object::new()
                .number("added", *added)
                .number("removed", *removed))
            .number("changed", *changed)
            .number("same", *same)
            .line(),
        }
    }
}

impl Change {
    fn line(self, json: bool) -> String {
        if !json {
            return match self {
                Self::Added(id, is) => format!("+ {id} {is}\n"),
                Self::Removed(id, was) => format!("- {id} {was}\n"),
                Self::Changed(id, was, is) => format!("! {id} {was} {is}\n"),
            };
        }
        let object = |change: &str, id: u32| Object::new().text("change", change).number("id", id);
        match self {
            Self::Added(id, is) => object("added", id).long("new", is),
            Self::Removed(id, was) => object("removed", id).long("old", was),
            Self::Changed(id, was, is) => object("changed", id).long("old", was).long("new", is),
        }
        .line()
    }
}
