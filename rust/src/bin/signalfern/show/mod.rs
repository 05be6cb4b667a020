//! show: a column as a person may want to see it.

pub mod blocks;
mod object;
pub mod values;

use std::fmt::Write;

use crate::arguments::Arguments;
use crate::audit::Subject;
use crate::blocks::{Section, END};
use crate::check::{refused_object, Refused};
use crate::diagnosis::Diagnosis;
use crate::failure::{complain, say, Failure, DIGEST, REFUSED};
use crate::header::{smallest, Header, NAMES};
use crate::html;
use crate::json::Object;
use crate::load::Loaded;
use crate::output::{print, Output};
use crate::packing::Packing;
use crate::replaced::Replaces;
use crate::sha256::Digest;
use crate::text::{counted, hex};
use crate::witness::Witnesses;
use blocks::Sizes;

/// Rows shown at the beginning and at the end of a long table.
const FIRST_ROWS: usize = 20;
const LAST_ROWS: usize = 5;
/// Signs of the longest bar.
const BAR: u128 = 40;

pub fn run(mut arguments: Arguments) -> Result<(), Failure> {
    let given = arguments.digest("digest")?;
    let path = arguments.file("column")?;
    arguments.finish()?;
    arguments.one_form()?;
    let mut loaded = Loaded::open(&path)?;
    let force = arguments.has("force");
    let html = arguments
        .path("html")
        .map(|path| Output::open(&path, force, Replaces::Reports, &[loaded.input()]));
    let html = html.transpose()?;
    let json = arguments.has("json");
    let (count, witnesses) = match judged(&mut loaded, given)? {
        Ok(sound) => sound,
        Err(refused) => return tell_refused(&loaded, &refused, html.is_some(), json),
    };
    if let Some(output) = html {
        let subject = Subject {
            layer: None,
            loaded: &loaded,
            count,
            witnesses,
        };
        let page = html::show(&subject)?;
        return output.fill_whole(|out| out.write_all(page.as_bytes()));
    }
    if !json {
        return print(&picture(&loaded, ""));
    }
    let object = Object::new().file("file", &path).text("status", "sound");
    let object = object.number("bytes", loaded.bytes.len() as u64);
    let object = object.text("sha256", &hex(&loaded.digest()));
    let object = object.texts("compared", &witnesses);
    print(&object::of(&loaded.bytes, object).line())
}

/// The count of pairs and who confirmed the digest, or why the file is refused.
type Judged = Result<(u64, Vec<String>), Refused>;

fn judged(loaded: &mut Loaded, given: Option<Digest>) -> Result<Judged, Failure> {
    let count = match loaded.check() {
        Ok(count) => count,
        Err(refusal) => {
            return Ok(Err(Refused {
                refusal: (refusal.number(), refusal.name()),
                meaning: refusal.to_string(),
                // The explanation may read more of the file, which can then be shown.
                diagnosis: Diagnosis::of(loaded, refusal),
            }));
        }
    };
    let witnesses = Witnesses::of(loaded.path(), given)?;
    if !witnesses.is_empty() {
        if let Err(differs) = witnesses.confirm(loaded.digest(), "column") {
            return Ok(Err(Refused {
                refusal: DIGEST,
                meaning: differs.meaning(),
                diagnosis: differs.diagnosis(),
            }));
        }
    }
    Ok(Ok((count, witnesses.names())))
}

/// What can be made out of a refused column; there is no report of one.
fn tell_refused(
    loaded: &Loaded,
    refused: &Refused,
    report: bool,
    json: bool,
) -> Result<(), Failure> {
    let Refused {
        refusal: (number, code),
        meaning,
        diagnosis,
    } = refused;
    let shown = match (report, json) {
        (true, _) => Ok(()),
        (false, true) => {
            let object = Object::new().file("file", loaded.path());
            let object = refused_object(object, refused.refusal, meaning);
            let object = object::of(&loaded.bytes, object);
            print(&diagnosis.json(object).line())
        }
        (false, false) => {
            let mark = format!("REFUSED ({number}, {code}); what can be made out:");
            print(&picture(loaded, &mark))
        }
    };
    if report || !json {
        let name = &loaded.name;
        complain(format!("{name}: refusal {number}, {code}: {meaning}"));
        say(&diagnosis.text());
    }
    match shown {
        Ok(()) | Err(Failure::OutputClosed) => Err(Failure::Said(REFUSED)),
        failed => failed,
    }
}

/// The whole text; `mark` is empty for a sound column.
fn picture(loaded: &Loaded, mark: &str) -> String {
    let bytes = &loaded.bytes;
    let header = match Header::parse(bytes) {
        Ok(header) => header,
        Err(unreadable) => {
            let mut out = format!("{}: {mark}\n", loaded.name);
            header_rows(&mut out, &unreadable.numbers, unreadable.at);
            return out;
        }
    };
    let about = if mark.is_empty() {
        let count = counted(header.count, "pair");
        format!("{count} in {} bytes", bytes.len())
    } else {
        mark.to_string()
    };
    let mut out = format!("{}: {about}\n", loaded.name);
    header_rows(&mut out, &header.numbers(), header.len());
    if header.packing().is_some() && header.broken_rule().is_none() {
        let section = Section::of(&header, bytes);
        let (rows, sizes) = blocks::rows_of(&section);
        blocks::put(&mut out, &rows, mark);
        values::put(&mut out, &header, bytes, mark);
        sections(&mut out, &header, &sizes);
    }
    out
}

// Writing to a string cannot fail, so the results below are dropped.

/// The numbers of a header, as far as they could be read.
fn header_rows(out: &mut String, numbers: &[u64], bytes: usize) {
    let rows: Vec<(&str, String, String)> = (NAMES.iter().zip(numbers))
        .enumerate()
        .map(|(index, (name, number))| {
            let remark = remark(Packing::of(numbers[0]), index, *number);
            let number = match index {
                6 => smallest(*number).to_string(),
                _ => number.to_string(),
            };
            (*name, number, remark)
        })
        .collect();
    let width = rows.iter().map(|row| row.1.len()).max().unwrap_or(0);
    let _ = writeln!(out, "\nHeader ({bytes} bytes)");
    for (name, number, remark) in rows {
        let row = format!("  {name:<18} {number:>width$}  {remark}");
        let _ = writeln!(out, "{}", row.trim_end());
    }
}

/// What is said of a header number beside it.
pub fn remark(packing: Option<Packing>, index: usize, number: u64) -> String {
    match (index, number) {
        (0, _) => packing.map_or(String::new(), |it| it.about().to_string()),
        (5 | 6, 0) if packing == Some(Packing::Runs) => "each run has its own".to_string(),
        (5, _) if packing == Some(Packing::Table) => "bits for each code".to_string(),
        (6, 0) if packing == Some(Packing::Table) => "the table has all values".to_string(),
        (7, _) if packing == Some(Packing::Table) => "entries of the table".to_string(),
        (2, 0) => "no ranks".to_string(),
        (2, 7..=15) => format!("one rank to every {} places of a dense block", 1 << number),
        (3 | 8, _) => "bytes".to_string(),
        (5, _) => "bits for each value".to_string(),
        _ => String::new(),
    }
}

/// What is said of a table of a damaged column.
fn as_far(mark: &str) -> &'static str {
    match mark {
        "" => "",
        _ => ", as far as they make sense",
    }
}

/// The first rows of a table and the last, and between them those that are left out.
fn first_and_last<T>(
    out: &mut String,
    rows: &[T],
    put: impl Fn(&mut String, &T),
    left_out: impl Fn(&[T]) -> String,
) {
    if rows.len() <= FIRST_ROWS + LAST_ROWS {
        rows.iter().for_each(|row| put(out, row));
        return;
    }
    let (first, rest) = rows.split_at(FIRST_ROWS);
    let (middle, last) = rest.split_at(rest.len() - LAST_ROWS);
    first.iter().for_each(|row| put(out, row));
    let _ = writeln!(out, "  ... {} left out ...", left_out(middle));
    last.iter().for_each(|row| put(out, row));
}

/// The parts of a column and their bytes, in the order of the file; of a header that keeps the rules.
pub fn parts(header: &Header, sizes: &Sizes) -> Vec<(&'static str, u128)> {
    let total = header.total();
    let front = values::front(header);
    let before = front.map_or(0, |(_, bytes)| bytes);
    let mut rows = vec![
        ("header", header.len() as u128),
        ("block heads", u128::from(sizes.heads)),
        ("sparse places", u128::from(sizes.places)),
        ("rank tables", u128::from(sizes.ranks)),
        ("bitmaps", u128::from(sizes.bitmaps)),
        ("end block", END.len() as u128),
        ("jump entries", 8 * u128::from(header.jump_count)),
        ("values", u128::from(header.value_bytes - before)),
    ];
    if let Some((name, bytes)) = front {
        rows.insert(rows.len() - 1, (name, u128::from(bytes)));
    }
    let known: u128 = rows.iter().map(|row| row.1).sum();
    if known < total {
        rows.push(("not made out", total - known));
    }
    rows
}

fn sections(out: &mut String, header: &Header, sizes: &Sizes) {
    let total = header.total();
    let rows = parts(header, sizes);
    let longest = rows.iter().map(|row| row.1).max().unwrap_or(0).max(1);
    let _ = writeln!(out, "\nWhere the {total} bytes go");
    for (name, bytes) in rows {
        let (share, bar) = (share(bytes, total), bar(bytes, longest));
        let row = format!("  {name:<14} {bytes:>12} {share}  {bar}");
        let _ = writeln!(out, "{}", row.trim_end());
    }
}

/// A part of a whole, in percent.
pub fn share(part: u128, whole: u128) -> String {
    format!("{:>5.1}%", 100.0 * part as f64 / whole as f64)
}

/// A bar for a part, beside the longest part, which is above 0: at least one sign for what is there at all.
fn bar(part: u128, longest: u128) -> String {
    "#".repeat((part * BAR).div_ceil(longest) as usize)
}
