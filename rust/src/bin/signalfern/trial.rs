//! write --dry-run: a list read as for a writing, and all its bad lines named.

use std::path::{Path, PathBuf};

use signalfern::Edition;

use crate::arguments::Arguments;
use crate::best::Sizes;
use crate::failure::{complain, Failure, REFUSED};
use crate::input::Input;
use crate::json::Object;
use crate::output::print;
use crate::pairs::{Bad, Pairs};
use crate::reading::{duplicates, Reading};
use crate::text::counted;

/// Bad lines that are named, if no other number is told.
const BAD_LINES: usize = 20;

/// Reads the list and writes nothing: names its bad lines, or tells what would be written.
pub fn try_out(
    mut arguments: Arguments,
    mut reading: Reading,
    told: Option<Edition>,
    power: u32,
) -> Result<(), Failure> {
    let limit = arguments
        .number("limit", "count of lines")?
        .unwrap_or(BAD_LINES);
    let input = arguments.next().map_or(PathBuf::from("-"), PathBuf::from);
    arguments.finish()?;
    let json = arguments.has("json");
    let source = input.clone();
    let input = Input::open(&input)?;
    let name = input.name();
    // One more is sought, to tell that there are more.
    let (mut pairs, mut bad) = Pairs::read_on(input, &mut reading.layout, limit.saturating_add(1))?;
    let left_out = reading.arrange(&mut pairs)?;
    bad.extend(pairs.bad_ids(limit.saturating_add(1)));
    bad.sort_by_key(|bad| bad.line);
    if !bad.is_empty() {
        return Err(bad_lines(&source, &name, &bad, limit, json)?);
    }
    let refused = |refusal| pairs.passed_over.refused(&pairs.ids, &name, refusal);
    let sizes = Sizes::of(&pairs, power).map_err(refused)?;
    let edition = sizes.written(told);
    let (count, bytes) = (pairs.ids.len() as u64, sizes.bytes(edition) as u64);
    if json {
        let object = Object::new().file("file", &source);
        let object = object.text("status", "would be written");
        let object = object.number("pairs", count).number("bytes", bytes);
        let object = object.number("edition", edition.number());
        return print(&object.objects("editions", sizes.objects()).line());
    }
    let (count, bytes) = (counted(count, "pair"), counted(bytes, "byte"));
    let (sizes, left_out, edition) = (sizes.lines(), duplicates(left_out), edition.number());
    print(&format!(
        "{sizes}{name}: {count}{left_out}, would be written in {bytes} of edition {edition}\n"
    ))
}

/// Names bad lines; gives what ends the program.
fn bad_lines(
    source: &Path,
    name: &str,
    bad: &[Bad],
    limit: usize,
    json: bool,
) -> Result<Failure, Failure> {
    let mut objects = String::new();
    for Bad { line, refusal, why } in bad.iter().take(limit) {
        if json {
            let object = Object::new().file("file", source);
            let object = object
                .number("line", *line as u64)
                .number("refusal", refusal.0);
            objects += &object.text("name", refusal.1).text("meaning", why).line();
        } else {
            Failure::refused_as(format!("{name}: line {line}"), *refusal, why).report();
        }
    }
    if json {
        print(&objects)?;
    } else if bad.len() > limit {
        complain(format!(
            "{name}: there are more bad lines; --limit names more of them"
        ));
    }
    Ok(Failure::Said(REFUSED))
}
