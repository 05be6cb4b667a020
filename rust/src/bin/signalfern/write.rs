//! write: a column made of lines.

use std::path::{Path, PathBuf};

use signalfern::{power_allowed, Edition, Refusal};

use crate::arguments::Arguments;
use crate::beside::Sidecar;
use crate::best::Sizes;
use crate::failure::Failure;
use crate::header::Header;
use crate::input::Input;
use crate::memory;
use crate::output::Output;
use crate::pairs::Pairs;
use crate::reading::{duplicates, Reading};
use crate::replaced::Replaces;
use crate::sha256::digest;
use crate::text::named;
use crate::trial::try_out;
use crate::written::Report;

/// Lucene's choice too.
const DEFAULT_POWER: u32 = 9;

/// What `--edition` takes.
const EDITIONS: &str = "edition: 1, 2, 3 or 4";

pub fn run(arguments: Arguments) -> Result<(), Failure> {
    let rule = "rank power: 0, or 7 to 15";
    let power = arguments.number("power", rule)?.unwrap_or(DEFAULT_POWER);
    if !power_allowed(power) {
        return Err(arguments.usage(format!("`{power}` is no {rule}")));
    }
    let told = edition_told(&arguments)?;
    let reading = Reading::of(&arguments)?;
    if arguments.has("dry-run") {
        return try_out(arguments, reading, told, power);
    }
    match arguments.has("limit") {
        true => Err(arguments.usage("--limit is for --dry-run")),
        false => write(arguments, reading, told, power),
    }
}

fn write(
    mut arguments: Arguments,
    mut reading: Reading,
    told: Option<Edition>,
    power: u32,
) -> Result<(), Failure> {
    let force = arguments.has("force");
    let Some(path) = arguments.path("output") else {
        return Err(arguments.usage("no output is named: -o COLUMN"));
    };
    let input = arguments.next().map_or(PathBuf::from("-"), PathBuf::from);
    arguments.finish()?;

    let input = Input::open(&input)?;
    let output = Output::open(&path, force, Replaces::Columns, &[&input])?;
    let sidecar = Sidecar::open(&arguments, &path, &output, &[&input])?;
    let (name, from_standard) = (input.name(), input.is_standard());
    let mut pairs = Pairs::read(input, &mut reading.layout)?;
    if from_standard && pairs.was_empty && !force {
        not_by_nothing(&output, &path, "column")?;
    }
    let left_out = reading.arrange(&mut pairs)?;
    let (column, sizes) = column_of(&pairs, told, power, &name)?;
    let count = pairs.ids.len() as u64;
    // From here on the column alone is needed.
    drop(pairs);
    let digest = digest(&column);
    let to_standard = output.is_standard();
    output.fill_whole(|out| out.write_all(&column))?;
    sidecar.write(&path, &digest)?;
    Report {
        path: &path,
        before: sizes.as_ref().map_or(String::new(), Sizes::lines),
        count,
        noun: "pair",
        bytes: column.len() as u64,
        remark: remark(told, &column) + &duplicates(left_out),
        left_out,
        editions: Some((edition_of(&column), sizes)),
        digest,
        to_standard,
        json: arguments.has("json"),
    }
    .tell()
}

fn edition_of(column: &[u8]) -> u64 {
    Header::parse(column).map_or(0, |header| header.edition)
}

/// The edition that is told; none where it is the one with the fewest bytes.
fn edition_told(arguments: &Arguments) -> Result<Option<Edition>, Failure> {
    let told = arguments.number("edition", EDITIONS)?;
    match (told, arguments.has("best")) {
        (None, true) => Ok(None),
        (None, false) => Ok(Some(Edition::default())),
        (Some(_), true) => Err(arguments.usage("--best chooses the edition: leave --edition out")),
        (Some(number), false) => match Edition::from_number(number) {
            Some(edition) => Ok(Some(edition)),
            None => Err(arguments.usage(format!("`{number}` is no {EDITIONS}"))),
        },
    }
}

/// What is said of the edition that was written, where it is not just the one that was told.
fn remark(told: Option<Edition>, column: &[u8]) -> String {
    let written = edition_of(column);
    match told {
        None => format!(" of edition {written}"),
        Some(told) if u64::from(told.number()) != written => {
            format!(" of edition {written}, since no table makes it shorter")
        }
        Some(_) => String::new(),
    }
}

/// No file is replaced because a command before us failed and nothing came of it.
pub fn not_by_nothing(output: &Output, path: &Path, what: &str) -> Result<(), Failure> {
    if !output.replaces() {
        return Ok(());
    }
    Err(Failure::Trouble(format!(
        "standard input is empty, and {} is there: --force replaces it by an empty {what}",
        named(path)
    )))
}

/// The column, and what each edition would take where the best is to be chosen.
fn column_of(
    pairs: &Pairs,
    told: Option<Edition>,
    power: u32,
    name: &str,
) -> Result<(Vec<u8>, Option<Sizes>), Failure> {
    let refused = |refusal| pairs.passed_over.refused(&pairs.ids, name, refusal);
    let sizes = match told {
        Some(_) => None,
        None => Some(Sizes::of(pairs, power).map_err(refused)?),
    };
    let edition = told.or(sizes.as_ref().map(Sizes::best)).unwrap_or_default();
    let write = |out: &mut [u8]| signalfern::write(&pairs.ids, &pairs.values, edition, power, out);
    // No column is empty, so the first call asks for room.
    let needed = match write(&mut []) {
        Err(Refusal::Room { needed }) => needed,
        Err(refusal) => return Err(refused(refusal)),
        Ok(len) => len,
    };
    let mut column = memory::zeros(needed as u64, "the column")?;
    write(&mut column).map_err(refused)?;
    Ok((column, sizes))
}
