//! docs/ARCHITECTURE.md, docs/DEMANDS.md, docs/PROVING.md and README.md beside the tree: the paths that they name,
//! crates, files of definitions and of laws, the functions of crate `demands`, calls, refusals and counts. (The names
//! of statements are held by `promises.rs`.) Each check is a function from a text to what is wrong in it, and is tried
//! on a text with a slip too.

use std::collections::BTreeSet;
use std::fs;
use std::path::{Path, PathBuf};

use signalfern::Refusal;

const ARCHITECTURE: &str = include_str!("../../../docs/ARCHITECTURE.md");
const DEMANDS: &str = include_str!("../../../docs/DEMANDS.md");
const PROVING: &str = include_str!("../../../docs/PROVING.md");
const README: &str = include_str!("../../../README.md");

/// Pages of the kit, which is not in the tree.
const OF_THE_KIT: [&str; 3] = ["START-HERE.md", "FIRST_PROOFS.md", "SHORTER_PROOFS.md"];

/// What stands for any name in a path.
const ANY: [&str; 2] = ["NAME", "F"];

/// What a name without a stroke ends in, if it is a file's.
const ENDINGS: [&str; 10] = [
    ".antt", ".c", ".edit", ".h", ".json", ".md", ".py", ".rs", ".rt", ".txt",
];

fn root() -> PathBuf {
    Path::new(env!("CARGO_MANIFEST_DIR")).join("..")
}

fn text_of(path: &str) -> String {
    fs::read_to_string(root().join(path)).unwrap_or_else(|error| panic!("{path}: {error}"))
}

/// The names in a folder, sorted.
fn names_in(folder: &Path) -> Vec<String> {
    let there = fs::read_dir(folder).unwrap_or_else(|error| panic!("{folder:?}: {error}"));
    let names = there.map(|entry| entry.unwrap().file_name().into_string().unwrap());
    let mut names: Vec<String> = names.collect();
    names.sort();
    names
}

/// The files in a folder whose names end so, without the ending.
fn files_in(folder: &str, ending: &str) -> BTreeSet<String> {
    let names = names_in(&root().join(folder));
    let bare = |name: &String| name.strip_suffix(ending).map(str::to_string);
    names.iter().filter_map(bare).collect()
}

/// The crates, as `crates.txt` lists them.
fn crates() -> BTreeSet<String> {
    let lines = text_of("crates.txt");
    let lines = lines.lines().filter(|line| !line.starts_with('#'));
    // (`NAME:`, or `NAME staticlib:`)
    let named = lines.filter_map(|line| line.split_once(':')?.0.split(' ').next());
    named.map(str::to_string).collect()
}

/// The names of all files and folders of the tree, but for what is built. (What vanishes meanwhile is passed over.)
fn all_names() -> BTreeSet<String> {
    let (mut found, mut folders) = (BTreeSet::new(), vec![root()]);
    while let Some(folder) = folders.pop() {
        for entry in fs::read_dir(folder).into_iter().flatten().flatten() {
            let name = entry.file_name().to_string_lossy().into_owned();
            let is_folder = entry.file_type().is_ok_and(|kind| kind.is_dir());
            if is_folder && ![".git", "target", "out", "__pycache__"].contains(&&name[..]) {
                folders.push(entry.path());
            }
            found.insert(name);
        }
    }
    found
}

/// A page without its blocks of code.
fn prose(page: &str) -> String {
    let mut is_code = false;
    let kept = page.lines().filter(|line| {
        let is_fence = line.starts_with("```");
        is_code ^= is_fence;
        !is_code && !is_fence
    });
    kept.collect::<Vec<_>>().join("\n")
}

/// What stands between backquotes.
fn quoted(text: &str) -> Vec<&str> {
    assert_eq!(text.matches('`').count() % 2, 0, "a backquote is alone");
    text.split('`').skip(1).step_by(2).collect()
}

/// The rows of the tables whose head begins so, cell by cell.
fn rows<'a>(page: &'a str, head: &str) -> Vec<Vec<&'a str>> {
    let (mut rows, mut is_there) = (Vec::new(), false);
    for line in page.lines() {
        if line.starts_with(head) {
            is_there = true;
        } else if !line.starts_with('|') {
            is_there = false;
        } else if is_there && !line.starts_with("|---") {
            let cells: Vec<&str> = line.split('|').collect();
            rows.push(cells[1..cells.len() - 1].to_vec());
        }
    }
    rows
}

/// What a page names too much, and what it leaves out.
fn differences(what: &str, named: &BTreeSet<String>, there: &BTreeSet<String>) -> Vec<String> {
    let gone = named.difference(there);
    let left_out = there.difference(named);
    gone.map(|name| format!("{what}: no {name}"))
        .chain(left_out.map(|name| format!("{what}: {name} is left out")))
        .collect()
}

// ---- paths

/// Whether these parts lead from a folder to something.
fn leads(folder: &Path, parts: &[&str]) -> bool {
    let Some((first, rest)) = parts.split_first() else {
        return folder.exists();
    };
    if !ANY.contains(first) {
        return leads(&folder.join(first), rest);
    }
    let names = fs::read_dir(folder).into_iter().flatten();
    names.flatten().any(|entry| leads(&entry.path(), rest))
}

/// Whether a path is there: from the root, under `crates/` or in some crate; or it is a must-fail edit of a crate.
fn is_there(path: &str) -> bool {
    let parts: Vec<&str> = path.trim_end_matches('/').split('/').collect();
    let crates = root().join("crates");
    let anywhere: Vec<&str> = ["NAME"].iter().chain(&parts).copied().collect();
    let edit = |folder: &str| match parts[..] {
        [name, edit] => crates
            .join(format!("{name}/{folder}/{edit}.edit"))
            .is_file(),
        _ => false,
    };
    leads(&root(), &parts)
        || leads(&crates, &parts)
        || leads(&crates, &anywhere)
        || edit("must-fail")
        || edit("must-fail-more")
}

/// The paths of a page that lead nowhere: in backquotes, in links, and pages of `docs/` in the text. The number is how
/// many were looked at.
fn wrong_paths(page: &str) -> (usize, Vec<String>) {
    let (text, names) = (prose(page), all_names());
    let is_plain = |word: &str| {
        word.chars()
            .all(|c| c.is_ascii_alphanumeric() || "_./+-".contains(c))
    };
    let in_quotes = quoted(&text).into_iter().filter(|word| {
        let is_file = ENDINGS.iter().any(|ending| word.ends_with(ending));
        is_plain(word) && (word.contains('/') || is_file) && !word.starts_with('/')
    });
    let links = text.split("](").skip(1).filter_map(|rest| {
        let (link, _) = rest.split_once(')')?;
        let (file, _) = link.split_once('#').unwrap_or((link, ""));
        (!file.is_empty()).then_some(file)
    });
    let pages = text.split(|c: char| !is_plain(&c.to_string()));
    let pages = pages.filter(|word| word.starts_with("docs/") && word.contains(".md"));
    let pages = pages.map(|word| word.trim_end_matches('.'));
    let (mut count, mut wrong) = (0, Vec::new());
    for word in in_quotes.chain(links).chain(pages) {
        // (what is built is not in the tree)
        if word.starts_with("target/") || OF_THE_KIT.contains(&word) {
            continue;
        }
        count += 1;
        let there = match word.contains('/') {
            true => is_there(word),
            false => names.contains(word) || root().join("docs").join(word).exists(),
        };
        if !there {
            wrong.push(format!("no {word}"));
        }
    }
    (count, wrong)
}

#[test]
fn each_path_is_there() {
    for (page, least) in [
        (ARCHITECTURE, 25),
        (DEMANDS, 400),
        (PROVING, 60),
        (README, 20),
    ] {
        let (count, wrong) = wrong_paths(page);
        assert!(wrong.is_empty(), "{wrong:#?}");
        assert!(count >= least, "{count} paths");
    }
}

#[test]
fn a_wrong_path_is_found() {
    for (text, wrong) in [
        ("`crates.txt`, `format/specs/Kit.antt`", None),
        ("`crate.txt`", Some("no crate.txt")),
        (
            "`format/specs/Kitt.antt`",
            Some("no format/specs/Kitt.antt"),
        ),
        ("`rust/tests/libary/`", Some("no rust/tests/libary/")),
        ("`crates/NAME/must-fail/`, `proofs/F/Invariants.antt`", None),
        ("`crates/NAME/may-fail/`", Some("no crates/NAME/may-fail/")),
        ("`writer/refuses_all`, `format/plan_after_room`", None),
        ("`writer/refuses_none`", Some("no writer/refuses_none")),
        ("see [it](docs/FORMAT.md#refusals)", None),
        ("see [it](docs/FORMATS.md)", Some("no docs/FORMATS.md")),
        ("docs/DEMAND.md, \"Terms\"", Some("no docs/DEMAND.md")),
        ("```\n`no/such`\n```", None),
    ] {
        let found = wrong_paths(text).1;
        assert_eq!(found.first().map(String::as_str), wrong, "{text}");
    }
}

// ---- crates, files of definitions and of laws, functions of `demands`

/// The table of crates has each crate once, and no other.
fn wrong_crates(architecture: &str) -> Vec<String> {
    let mut named = BTreeSet::new();
    let mut wrong = Vec::new();
    for cells in rows(architecture, "| layer | crate |") {
        for name in quoted(cells[1]) {
            if !named.insert(name.to_string()) {
                wrong.push(format!("crates: {name} twice"));
            }
        }
    }
    wrong.extend(differences("crates", &named, &crates()));
    wrong
}

/// The tables of laws name files that are there. (That each file is named: `promises.rs`.)
fn wrong_laws(architecture: &str) -> Vec<String> {
    let mut wrong = Vec::new();
    for folder in ["laws/proofs", "judge/proofs", "set_format/proofs"] {
        let head = format!("| files of `{folder}` |");
        let line = architecture.lines().find(|line| line.ends_with(&head));
        let Some(line) = line else {
            wrong.push(format!("{folder}: no table"));
            continue;
        };
        let mut there = files_in(&format!("crates/{folder}"), ".antt");
        there.remove("Lib");
        let rows = rows(architecture, line);
        let named = rows.iter().flat_map(|cells| quoted(cells[1]));
        let named = named.map(str::to_string).collect();
        wrong.extend(differences(folder, &named, &there));
    }
    wrong
}

/// The table of definitions has each file of `format/specs`.
fn wrong_definitions(demands: &str) -> Vec<String> {
    let rows = rows(demands, "| definitions | files of `format/specs` |");
    let named = rows.iter().flat_map(|cells| quoted(cells[1]));
    let named = named.map(|file| file.trim_end_matches(".antt").to_string());
    let there = files_in("crates/format/specs", ".antt");
    differences("format/specs", &named.collect(), &there)
}

/// The functions that a source declares.
fn functions(source: &str) -> BTreeSet<String> {
    let lines = source.lines().map(|line| line.trim_start());
    let named = lines.filter_map(|line| {
        let line = line.strip_prefix("pub ").unwrap_or(line);
        line.strip_prefix("fn ")?.split(['(', '<']).next()
    });
    named.map(str::to_string).collect()
}

/// The table of functions has each function of crate `demands` with its file, and no other.
fn wrong_functions(demands: &str) -> Vec<String> {
    let (mut named, mut there) = (BTreeSet::new(), BTreeSet::new());
    for cells in rows(demands, "| functions | what |") {
        let words = quoted(cells[0]);
        let Some((file, names)) = words.split_last() else {
            continue;
        };
        named.extend(names.iter().map(|name| format!("{name} in {file}")));
    }
    for file in files_in("crates/demands/src", ".rt") {
        let file = format!("demands/src/{file}.rt");
        let names = functions(&text_of(&format!("crates/{file}")));
        there.extend(names.iter().map(|name| format!("{name} in {file}")));
    }
    differences("crate demands", &named, &there)
}

/// The public calls: those of `signalfern`, and two of its types.
fn calls() -> BTreeSet<String> {
    let mut calls = functions(&text_of("crates/signalfern/src/lib.rt"));
    calls.extend(["Column::open", "Cursor::new"].map(str::to_string));
    calls
}

/// Each call has a row among the contracts and one among the wrong programs (a new cursor, which is 0, has none).
fn wrong_calls(demands: &str) -> Vec<String> {
    let mut wrong = Vec::new();
    for (head, others) in [
        (
            "| call | the reply |",
            &["Refusal::number", "Refusal::number_with", "Reason::number"][..],
        ),
        ("| call | wrong programs |", &["Cursor::new"]),
    ] {
        let rows = rows(demands, head);
        let named = rows.iter().flat_map(|cells| quoted(cells[0]));
        let named = named.filter(|name| !name.ends_with(".rt"));
        let mut named: BTreeSet<String> = named.map(str::to_string).collect();
        named.extend(others.iter().map(|name| name.to_string()));
        let mut there = calls();
        there.extend(others.iter().map(|name| name.to_string()));
        wrong.extend(differences(head, &named, &there));
    }
    wrong
}

#[test]
fn crates_files_functions_and_calls() {
    assert_eq!(wrong_crates(ARCHITECTURE), [""; 0]);
    assert_eq!(wrong_laws(ARCHITECTURE), [""; 0]);
    assert_eq!(wrong_definitions(DEMANDS), [""; 0]);
    assert_eq!(wrong_functions(DEMANDS), [""; 0]);
    assert_eq!(wrong_calls(DEMANDS), [""; 0]);
    // The folders are the crates of crates.txt.
    let folders: BTreeSet<String> = names_in(&root().join("crates")).into_iter().collect();
    assert_eq!(folders, crates());
}

/// A text with a slip: the words once in it turned into others.
fn slip(page: &str, words: &str, others: &str) -> String {
    assert_eq!(page.matches(words).count(), 1, "{words}");
    page.replace(words, others)
}

#[test]
fn a_wrong_name_is_found() {
    let page = slip(ARCHITECTURE, "| `block_writer` |", "| `block_riter` |");
    let wrong = ["crates: no block_riter", "crates: block_writer is left out"];
    assert_eq!(wrong_crates(&page), wrong);
    let page = slip(ARCHITECTURE, "| `between` |", "| `next` |");
    let wrong = ["crates: next twice", "crates: between is left out"];
    assert_eq!(wrong_crates(&page), wrong);

    let page = slip(ARCHITECTURE, "`Halving`, `Probes`", "`Halves2`, `Probes`");
    let wrong = [
        "laws/proofs: no Halves2",
        "laws/proofs: Halving is left out",
    ];
    assert_eq!(wrong_laws(&page), wrong);
    let page = slip(ARCHITECTURE, "| files of `judge/proofs` |", "| files |");
    assert_eq!(wrong_laws(&page), ["judge/proofs: no table"]);

    let page = slip(DEMANDS, "`Limits.antt`, ", "");
    let wrong = ["format/specs: Limits is left out"];
    assert_eq!(wrong_definitions(&page), wrong);

    let page = slip(DEMANDS, "`new_cursor`, `next`, ", "`next`, `newer`, ");
    let wrong = [
        "crate demands: no newer in demands/src/asking.rt",
        "crate demands: new_cursor in demands/src/asking.rt is left out",
    ];
    assert_eq!(wrong_functions(&page), wrong);

    let page = slip(
        DEMANDS,
        "| `set_find` | `member_of",
        "| `set_seek` | `member_of",
    );
    let wrong = [
        "| call | the reply |: no set_seek",
        "| call | the reply |: set_find is left out",
    ];
    assert_eq!(wrong_calls(&page), wrong);
    let page = slip(DEMANDS, "| `set_find` | `set_check/", "| – | `set_check/");
    let wrong = ["| call | wrong programs |: set_find is left out"];
    assert_eq!(wrong_calls(&page), wrong);
}

// ---- counts

/// A number in digits, maybe with commas, or in a word.
fn number(word: &str) -> Option<usize> {
    let words = ["two", "three", "four", "five", "six", "seven", "eight"];
    let words = words.iter().chain(&["nine", "ten", "eleven", "twelve"]);
    let digits = word.replace(',', "");
    let at = words
        .clone()
        .position(|it| *it == word.to_ascii_lowercase());
    digits.parse().ok().or(at.map(|at| at + 2))
}

/// The number at each place where these words stand around one.
fn stated(page: &str, before: &str, after: &str) -> Vec<usize> {
    let found = page.match_indices(after).filter_map(|(at, _)| {
        let (rest, word) = page[..at].rsplit_once([' ', '\n', '('])?;
        let ends = rest.ends_with(before) || before.is_empty();
        ends.then(|| number(word))?
    });
    found.collect()
}

fn edits(folder: &str) -> usize {
    let crates = names_in(&root().join("crates"));
    let folders = crates
        .iter()
        .map(|name| format!("crates/{name}/must-fail{folder}"));
    let folders = folders.filter(|folder| root().join(folder).is_dir());
    folders.map(|folder| files_in(&folder, ".edit").len()).sum()
}

fn lines(folder: &str, files: impl Iterator<Item = String>) -> usize {
    let texts = files.map(|file| text_of(&format!("{folder}/{file}.antt")));
    texts.map(|text| text.lines().count()).sum()
}

/// The computed cases in a file: the fields of its records.
fn cases(file: &str) -> usize {
    let text = text_of(&format!("crates/format/proofs/{file}.antt"));
    let is_case = |line: &&str| {
        line.strip_prefix("  pub ")
            .and_then(|rest| rest.split_once(' '))
            .is_some_and(|(_, rest)| rest.starts_with(':'))
    };
    text.lines().filter(is_case).count()
}

fn all_cases() -> usize {
    let files = files_in("crates/format/proofs", ".antt");
    let files = files
        .iter()
        .filter(|file| file.starts_with("Pins") || *file == "Starred");
    files.map(|file| cases(file)).sum()
}

/// The items of a numbered list in a section.
fn items(page: &str, section: &str) -> usize {
    let (_, rest) = page.split_once(&format!("\n## {section}\n")).unwrap();
    let section = rest.split("\n## ").next().unwrap();
    let is_item = |line: &&str| {
        line.split_once(". ")
            .is_some_and(|(number, _)| number.parse::<u8>().is_ok())
    };
    section.lines().filter(is_item).count()
}

/// Whether a number with "some" before it is near enough.
fn is_near(stated: usize, real: usize) -> bool {
    stated.abs_diff(real) * 20 <= real
}

/// The counts that a page states beside those of the tree. Those with "some" may be off by a twentieth. A count that is
/// to be there and is not is wrong too.
fn wrong_counts(architecture: &str, demands: &str, proving: &str, readme: &str) -> Vec<String> {
    let pages = [architecture, demands, proving, readme];
    let specs = files_in("crates/format/specs", ".antt");
    let terms = rows(demands, "| definitions | files of `format/specs` |");
    let terms = terms
        .iter()
        .find(|cells| cells[0].contains("terms of the statements"));
    let terms = terms.map_or(Vec::new(), |cells| quoted(cells[1]));
    let terms = terms.iter().map(|file| file.trim_end_matches(".antt"));
    let terms = lines("crates/format/specs", terms.map(str::to_string));
    let weaker = files_in(".ci/weaker", ".edit").len();
    let mut wrong = Vec::new();
    let mut compare = |page: &str, before: &str, after: &str, real: usize| {
        let is_near_enough = |it: usize| match before.contains("some") {
            true => is_near(it, real),
            false => it == real,
        };
        let found = stated(page, before, after);
        if found.is_empty() {
            wrong.push(format!("no number in \"{before} ..{after}\""));
        }
        let bad = found.into_iter().filter(|it| !is_near_enough(*it));
        wrong.extend(bad.map(|it| format!("\"{before} {it}{after}\": {real}")));
    };
    compare(architecture, "The", " crates depend", crates().len());
    let calls = calls().len();
    compare(demands, "None of the", " calls has", calls);
    compare(demands, "Each of the", " calls has", calls);
    compare(demands, "For each of the", " calls `.ci/weaker`", weaker);
    compare(demands, "The gate tries", " edits", edits(""));
    compare(demands, "the", " in `must-fail-more/`", edits("-more"));
    compare(demands, "in", " files of `format/specs`", specs.len());
    let all = lines("crates/format/specs", specs.into_iter());
    compare(demands, "some", " lines in", all);
    compare(demands, "some", " lines, which no", terms);
    compare(demands, "every computed case, some", ":", all_cases());
    let rules = items(proving, "What the compiler does");
    compare(proving, "", " rules, each measured", rules);
    let editions = text_of("crates/format/specs/Editions.antt");
    let editions = editions
        .lines()
        .find(|line| line.starts_with("editions = "));
    let editions = editions.unwrap().matches('∷').count();
    compare(readme, "all", " editions", editions);
    // A row that tells how many cases a file has.
    for cells in rows(demands, "| statement | in plain words | wrong") {
        let told = cells[1].trim().split_once(" computed cases");
        let Some(told) = told.and_then(|(word, _)| number(word)) else {
            continue;
        };
        let files = quoted(cells[0]).into_iter();
        let files = files.filter_map(|file| file.strip_prefix("format/proofs/"));
        let real: usize = files.map(|it| cases(it.trim_end_matches(".antt"))).sum();
        if told != real {
            wrong.push(format!("{told} computed cases in{}: {real}", cells[0]));
        }
    }
    // Wherever else one of these is counted in digits.
    for page in pages {
        for (noun, real) in [
            (" crates", crates().len()),
            (" public calls", calls),
            (" contracts", calls),
            (" edits", edits("")),
        ] {
            let found = stated(page, "", noun).into_iter();
            let bad = found.filter(|it| *it != real && *it > 12);
            wrong.extend(bad.map(|it| format!("{it}{noun}: {real}")));
        }
    }
    wrong
}

#[test]
fn counts() {
    let wrong = wrong_counts(ARCHITECTURE, DEMANDS, PROVING, README);
    assert_eq!(wrong, [""; 0]);
}

#[test]
fn a_wrong_count_is_found() {
    let real = crates().len();
    let told = format!("The {real} crates");
    let page = slip(ARCHITECTURE, &told, "The 55 crates");
    let wrong = wrong_counts(&page, DEMANDS, PROVING, README);
    let twice = [
        format!("\"The 55 crates depend\": {real}"),
        format!("55 crates: {real}"),
    ];
    assert_eq!(wrong, twice);
    let (calls, gate, more) = (calls().len(), edits(""), edits("-more"));
    let files = files_in("crates/format/specs", ".antt").len();
    for (words, others) in [
        (format!("None of the {calls} "), "None of the 27 "),
        (format!("Each of the {calls} "), "Each of the 27 "),
        (format!("For each of the {calls} "), "For each of the 27 "),
        (format!("The gate tries {gate} "), "The gate tries 98 "),
        (format!("the {more} in `must-fail"), "the 201 in `must-fail"),
        (format!("in {files} files of"), "in 44 files of"),
        ("some 3,400 lines in".to_string(), "some 2400 lines in"),
        ("some 420 lines, which".to_string(), "some 300 lines, which"),
        ("case, some 770:".to_string(), "case, some 650:"),
        ("| 39 computed cases".to_string(), "| 40 computed cases"),
    ] {
        let page = slip(DEMANDS, &words, others);
        let found = wrong_counts(ARCHITECTURE, &page, PROVING, README);
        let told = others.trim_start_matches("| ").trim_end();
        let is_found = found.first().is_some_and(|it| it.contains(told));
        assert!(is_found, "{others}: {found:#?}");
    }
    // A count that is gone.
    let page = slip(
        DEMANDS,
        &format!("The gate tries {gate} edits"),
        "The gate tries edits",
    );
    let wrong = wrong_counts(ARCHITECTURE, &page, PROVING, README);
    assert_eq!(wrong, ["no number in \"The gate tries .. edits\""]);
    // More edits than are tried, wherever that is said.
    let page = format!("{PROVING}There are 300 edits.\n");
    let wrong = wrong_counts(ARCHITECTURE, DEMANDS, &page, README);
    assert_eq!(wrong, [format!("300 edits: {gate}")]);
    let page = slip(PROVING, "Ten rules, each", "Nine rules, each");
    let wrong = wrong_counts(ARCHITECTURE, DEMANDS, &page, README);
    assert_eq!(wrong, ["\" 9 rules, each measured\": 10"]);
    let page = slip(README, "all four editions", "all three editions");
    let wrong = wrong_counts(ARCHITECTURE, DEMANDS, PROVING, &page);
    assert_eq!(wrong, ["\"all 3 editions\": 4"]);
}

// ---- README: pages and refusals

/// Each page of `docs/` is named, and each refusal with its number; no other refusal below 100 is.
fn wrong_readme(readme: &str) -> Vec<String> {
    let text = prose(readme);
    let pages = files_in("docs", ".md").into_iter();
    let pages = pages.map(|page| format!("docs/{page}.md"));
    let mut wrong: Vec<String> = pages
        .filter(|page| !text.contains(page))
        .map(|page| format!("{page} is not named"))
        .collect();
    let known = (1..=99).filter_map(|number| Refusal::from_number(number, 0));
    let known: Vec<String> = known
        .map(|refusal| format!("{} {}", refusal.number(), refusal.name()))
        .collect();
    // Two neighbours, a number and a word of great letters.
    let words = text.split_whitespace();
    let words: Vec<&str> = words
        .map(|word| word.trim_end_matches([',', '.']))
        .collect();
    let named = words.windows(2).filter(|pair| {
        let is_number = pair[0].parse().is_ok_and(|number: u8| number < 100);
        let is_name = pair[1].len() > 1 && pair[1].chars().all(|c| c.is_ascii_uppercase());
        is_number && is_name
    });
    let named: BTreeSet<String> = named.map(|pair| pair.join(" ")).collect();
    wrong.extend(differences(
        "refusals",
        &named,
        &known.into_iter().collect(),
    ));
    wrong
}

#[test]
fn pages_and_refusals_of_the_readme() {
    assert_eq!(wrong_readme(README), [""; 0]);
    let page = slip(README, "- docs/DECISIONS.md:", "- docs/REASONS.md:");
    assert_eq!(wrong_readme(&page), ["docs/DECISIONS.md is not named"]);
    let page = slip(README, "17 PLAN", "18 PLAN");
    let wrong = ["refusals: no 18 PLAN", "refusals: 17 PLAN is left out"];
    assert_eq!(wrong_readme(&page), wrong);
    let page = slip(README, "| 4 RANGE |", "| 4 REACH |");
    let wrong = ["refusals: no 4 REACH", "refusals: 4 RANGE is left out"];
    assert_eq!(wrong_readme(&page), wrong);
}
