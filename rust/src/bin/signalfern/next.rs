//! next: the listed ids from an id on.

use std::io::{self, Write};
use std::num::NonZeroU64;

use signalfern::{Candidate, Refusal};

use crate::arguments::Arguments;
use crate::column::Asked;
use crate::failure::Failure;
use crate::json::Object;
use crate::load::Loaded;
use crate::output::print_with;

pub fn run(mut arguments: Arguments) -> Result<(), Failure> {
    let count = arguments.number("count", "count of ids")?;
    let path = arguments.file("column")?;
    let (word, first) = arguments.last_id()?;
    let loaded = Loaded::sound(&path, arguments.digest("digest")?)?;
    let asked = Asked::of(&loaded)?;
    let line = if arguments.has("json") { json } else { text };
    let mut refused = None;
    print_with(|out| {
        let count = count.map_or(1, NonZeroU64::get);
        refused = tell(out, &asked, first, count, line)?;
        Ok(())
    })?;
    refused.map_or(Ok(()), |refusal| {
        Err(Failure::refused(
            format!("{}: id {word}", loaded.name),
            refusal,
        ))
    })
}

/// Tells so many candidates, or that there is none any more; gives the refusal, if there was one.
fn tell(
    out: &mut dyn Write,
    asked: &Asked,
    first: u32,
    count: u64,
    line: fn(u32, Option<Candidate>) -> String,
) -> io::Result<Option<Refusal>> {
    let mut target = first;
    let mut candidates = asked.candidates_from(first);
    for _ in 0..count {
        let found = match candidates.next().transpose() {
            Ok(found) => found,
            Err(refusal) => return Ok(Some(refusal)),
        };
        out.write_all(line(target, found).as_bytes())?;
        match found {
            Some(candidate) => target = candidate.id + 1,
            None => break,
        }
    }
    Ok(None)
}

fn text(target: u32, found: Option<Candidate>) -> String {
    match found {
        Some(it) => format!("{} {} ordinal {}\n", it.id, it.value, it.ordinal),
        None => format!("none at or above {target}\n"),
    }
}

fn json(target: u32, found: Option<Candidate>) -> String {
    let object = Object::new().number("target", target);
    match found {
        Some(it) => (object.text("answer", "found").number("id", it.id))
            .long("value", it.value)
            .long("ordinal", it.ordinal),
        None => object.text("answer", "none"),
    }
    .line()
}
