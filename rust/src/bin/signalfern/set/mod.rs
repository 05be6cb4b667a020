//! set: ids without values, written, checked, read and asked.

mod find;
mod read;
mod write;

use std::path::Path;

use signalfern::Refusal;

use crate::arguments::Arguments;
use crate::check::{check, Judged, Kind, Refused};
use crate::diagnosis::Diagnosis;
use crate::failure::Failure;
use crate::load::Loaded;
use crate::set_blocks::{Blocks, LONGEST};
use crate::sha256::Digest;
use crate::text::{byte_at, counted, typed};

/// First bytes by which a file that is too long for a set is explained.
const START: u64 = 1 << 16;

pub fn run(mut arguments: Arguments) -> Result<(), Failure> {
    let word = arguments.action()?;
    match word.as_str() {
        "write" => write::run(arguments),
        "check" => check(arguments, Kind::Set),
        "read" => read::run(arguments),
        _ => find::run(arguments),
    }
}

/// A file, and what the library says of it. No more is read of one that is longer than any set.
pub fn judged(path: &Path) -> Result<Judged, Failure> {
    let mut loaded = Loaded::start(path)?;
    let most = match loaded.len {
        Some(len) if len > LONGEST => START,
        _ => LONGEST + 1,
    };
    loaded.read_to(most)?;
    let judged = verdict(&loaded).map_err(|refusal| Refused {
        refusal: (refusal.number(), refusal.name()),
        meaning: sentence(refusal),
        diagnosis: explain(&loaded, refusal),
    });
    Ok((loaded, judged))
}

fn is_too_long(loaded: &Loaded) -> bool {
    loaded.len.unwrap_or(loaded.bytes.len() as u64) > LONGEST
}

fn verdict(loaded: &Loaded) -> Result<u64, Refusal> {
    match is_too_long(loaded) {
        true => Err(Refusal::Damaged),
        false => signalfern::set_check(&loaded.bytes),
    }
}

/// The library's sentences speak of columns.
fn sentence(refusal: Refusal) -> String {
    match refusal {
        Refusal::Short { bytes } => format!(
            "its {} end within a number: it is empty or cut off",
            counted(bytes as u64, "byte")
        ),
        Refusal::Number { place } => format!(
            "{} makes a number that is not in its shortest form or needs more than 64 bits: it is \
             damaged, or no set",
            byte_at(place)
        ),
        Refusal::Damaged => "the bytes are not the set of any list of ids".to_string(),
        other => other.to_string(),
    }
}

/// Why a set is refused, and what to do.
fn explain(loaded: &Loaded, refusal: Refusal) -> Diagnosis {
    let bytes = &loaded.bytes;
    if signalfern::check(bytes).is_ok() {
        let line = "this is a column, with values: `signalfern check` tells more of it".to_string();
        return Diagnosis::new(
            vec![line],
            "use the commands for columns, not those of `set`",
        );
    }
    if let Some(stranger) = Diagnosis::of_stranger(bytes, "ids", "set write FILE -o SET") {
        return stranger;
    }
    let mut lines = Vec::new();
    let mut advice =
        "take the file again, in binary mode, from where it was written, and compare the \
                      two by sha256sum";
    let total = loaded.len.unwrap_or(bytes.len() as u64);
    if let Some(found) = Blocks::first_fault(bytes, total) {
        let at = byte_at(found.at as usize);
        lines.push(format!(
            "first wrong place: {at}, {}: {}",
            found.part, found.why
        ));
    }
    if is_too_long(loaded) {
        let len = loaded.len.map_or("more".to_string(), |len| len.to_string());
        lines.push(format!(
            "the file has {len} bytes, and no set has more than {LONGEST}"
        ));
        advice = "see whether this is the right file";
    } else if matches!(refusal, Refusal::Short { .. }) {
        advice = "take the file again from where it was written, and compare the lengths by ls -l";
    }
    Diagnosis::new(lines, advice)
}

/// A set that the check accepts and that has the digest it must have, and its count of ids.
fn sound(path: &Path, given: Option<Digest>) -> Result<(Loaded, u64), Failure> {
    let (loaded, judged) = judged(path)?;
    let count = judged.map_err(|refused| {
        let file = typed(loaded.path());
        let hint = "it tells what is wrong.";
        let sentence = format!(
            "{}\nTry `signalfern set check {file}`: {hint}",
            refused.meaning
        );
        Failure::refused_as(&loaded.name, refused.refusal, sentence)
    })?;
    loaded.confirmed(given, "set")?;
    Ok((loaded, count))
}
