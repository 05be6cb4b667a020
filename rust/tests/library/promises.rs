//! docs/PROMISES.md and docs/DEMANDS.md beside the crates: each statement that they name is in the file that
//! they name, and each wrong program is there. And docs/ARCHITECTURE.md has a place for each crate and each
//! file of laws.

use std::fs;
use std::path::PathBuf;

const PROMISES: &str = include_str!("../../../docs/PROMISES.md");
const DEMANDS: &str = include_str!("../../../docs/DEMANDS.md");
const ARCHITECTURE: &str = include_str!("../../../docs/ARCHITECTURE.md");

fn crates() -> PathBuf {
    PathBuf::from(env!("CARGO_MANIFEST_DIR")).join("../crates")
}

/// The rows of a page's tables, without their heads, each with the file that its section names for all rows
/// ("Names without a file: `FILE`.") or nothing.
fn rows(page: &str) -> Vec<(&str, Vec<&str>)> {
    let (mut rows, mut file, mut heads) = (Vec::new(), "", false);
    for line in page.lines() {
        if line.starts_with('#') {
            file = "";
        } else if let Some((_, rest)) = line.split_once("Names without a file: `") {
            file = rest.split_once('`').unwrap().0;
        }
        let cells: Vec<&str> = line.split('|').collect();
        if line.starts_with("|---") {
            heads = true;
        } else if !line.starts_with('|') {
            heads = false;
        } else if heads {
            rows.push((file, cells[1..cells.len() - 1].to_vec()));
        }
    }
    rows
}

/// What stands between backquotes.
fn quoted(text: &str) -> impl Iterator<Item = &str> {
    text.split('`').skip(1).step_by(2)
}

fn is_file(word: &str) -> bool {
    word.ends_with(".antt") || word.ends_with(".rt")
}

/// The names of a cell, each with the file that is named next, or with the section's.
fn named<'a>(cell: &'a str, section: &'a str) -> Vec<(&'a str, &'a str)> {
    let mut names = Vec::new();
    let mut waiting = Vec::new();
    for word in quoted(cell) {
        if is_file(word) {
            names.extend(waiting.drain(..).map(|name| (name, word)));
        } else {
            waiting.push(word);
        }
    }
    names.extend(waiting.into_iter().map(|name| (name, section)));
    names
}

/// Whether a line of a proof file is where the name is declared: a type, a statement, a field or a case.
fn declares(line: &str, name: &str) -> bool {
    let mut words = line
        .split_whitespace()
        .skip_while(|word| ["unfoldable", "abbrev", "pub", "record", "data"].contains(word));
    words.next() == Some(name)
        && words
            .next()
            .is_some_and(|next| next.starts_with([':', '(', '{']))
}

/// A function's text: from its name to the next function's.
fn function<'a>(source: &'a str, name: &str) -> Option<&'a str> {
    source
        .split("fn ")
        .skip(1)
        .find(|text| text.split(['(', '<']).next() == Some(name))
}

/// The names of a row that their files do not have: a proof file has to declare the name; code has to have it as
/// a function, a type, or a clause of the function that was named before it.
fn missing(names: &[(&str, &str)]) -> Vec<String> {
    let mut before = String::new();
    let mut there = |(name, file): &&(&str, &str)| {
        let name = name.rsplit("::").next().unwrap();
        let source = fs::read_to_string(crates().join(file)).unwrap_or_default();
        if file.ends_with(".antt") {
            return source.lines().any(|line| declares(line, name));
        }
        if let Some(text) = function(&source, name) {
            before = text.to_string();
            return true;
        }
        before.contains(&format!("ensures {name} "))
            || ["struct", "enum"]
                .iter()
                .any(|kind| source.contains(&format!("pub {kind} {name} ")))
    };
    names
        .iter()
        .filter(|name| !there(name))
        .map(|(name, file)| format!("{name} ({file})"))
        .collect()
}

#[test]
fn each_promise_is_there() {
    let rows = rows(PROMISES);
    assert!(rows.len() > 90, "{}", rows.len());
    let names = rows.iter().map(|(section, cells)| named(cells[1], section));
    let missing: Vec<_> = names.flat_map(|names| missing(&names)).collect();
    assert!(missing.is_empty(), "{missing:#?}");
}

#[test]
fn each_statement_is_there() {
    let (mut count, mut all) = (0, Vec::new());
    for (section, cells) in rows(DEMANDS) {
        // What has a stroke is a wrong program.
        let mut names = named(cells[0], section);
        names.retain(|(name, _)| !name.contains('/'));
        count += names.len();
        all.extend(missing(&names));
    }
    assert!(all.is_empty(), "{all:#?}");
    assert!(count > 150, "{count}");
}

#[test]
fn each_wrong_program_is_there() {
    let (mut count, mut gone) = (0, Vec::new());
    for word in quoted(DEMANDS) {
        let Some((name, edit)) = word.split_once('/') else {
            continue;
        };
        // Other paths, under crates/ or from the root.
        let path = crates().join(word).exists() || crates().join("..").join(word).exists();
        if path || is_file(word) || word.ends_with('/') {
            continue;
        }
        let edit = format!("{edit}.edit");
        let is_in = |folder: &str| crates().join(name).join(folder).join(&edit).is_file();
        if !is_in("must-fail") && !is_in("must-fail-more") {
            gone.push(word);
        }
        count += 1;
    }
    assert!(gone.is_empty(), "{gone:#?}");
    assert!(count > 100, "{count}");
}

#[test]
fn each_crate_and_each_file_of_laws_has_a_place() {
    let names = |folder: &str| -> Vec<String> {
        let there = fs::read_dir(crates().join(folder)).unwrap();
        let names = there.map(|entry| entry.unwrap().file_name().into_string().unwrap());
        names.map(|name| name.replace(".antt", "")).collect()
    };
    let mut wanted = names(".");
    for folder in ["laws/proofs", "judge/proofs", "set_format/proofs"] {
        wanted.extend(names(folder).into_iter().filter(|name| name != "Lib"));
    }
    assert!(wanted.len() > 130, "{}", wanted.len());
    wanted.retain(|name| quoted(ARCHITECTURE).all(|word| word != name));
    assert!(wanted.is_empty(), "{wanted:#?}");
}
