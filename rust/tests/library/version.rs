//! The boundary's version: what the header declares is what its version was given for.

use std::collections::BTreeSet;
use std::fs;
use std::path::Path;
use std::process::Command;

const ROOT: &str = concat!(env!("CARGO_MANIFEST_DIR"), "/..");

/// The structs and the signatures of the header, each in one line.
fn declared(header: &str) -> BTreeSet<String> {
    let bare = |part: &str| part.split("/*").next().map(str::to_string);
    let code: String = header.split("*/").filter_map(bare).collect();
    let (mut found, mut text) = (BTreeSet::new(), String::new());
    let (mut depth, mut other_language) = (0, false);
    for line in code.lines().map(str::trim_end) {
        if line.starts_with('#') {
            other_language = line == "#ifdef __cplusplus";
        } else if !other_language {
            text.push_str(line);
            text.push(' ');
            depth += line.matches('{').count();
            depth -= line.matches('}').count();
            if depth == 0 && line.ends_with([';', '}']) {
                let words: Vec<&str> = text.split_whitespace().collect();
                let kept = words[0] == "typedef" || text.contains('(') && words[0] != "static";
                found.extend(kept.then(|| words.join(" ")));
                text.clear();
            }
        }
    }
    found
}

fn header() -> String {
    fs::read_to_string(format!("{ROOT}/include/signalfern.h")).unwrap()
}

/// A struct or a signature that changes asks for another version, which before 1.0 is another minor number: then
/// `c/declared-VERSION.txt` is written anew under the new name, and the archive's symbol gets it too. A new call
/// only asks for its line there.
#[test]
fn no_struct_and_no_signature_changes_within_a_version() {
    let header = header();
    let number = |part: &str| {
        let start = format!("#define SIGNALFERN_VERSION_{part} ");
        let line = header.lines().find_map(|line| line.strip_prefix(&start));
        line.unwrap().to_string()
    };
    let version = [number("MAJOR"), number("MINOR")];
    let whole = format!("{}.{}", version.join("."), number("PATCH"));
    assert_eq!(whole, env!("CARGO_PKG_VERSION"));
    assert!(header.contains(&format!("#define SIGNALFERN_VERSION \"{whole}\"\n")));

    let file = format!("c/declared-{}.txt", version.join("."));
    let kept = fs::read_to_string(Path::new(ROOT).join(&file));
    let kept = kept.unwrap_or_else(|error| panic!("{file}: {error}"));
    let kept: BTreeSet<String> = kept.lines().map(str::to_string).collect();
    let declared = declared(&header);
    let changed: Vec<_> = kept.difference(&declared).collect();
    assert!(changed.is_empty(), "not as in {file}: {changed:#?}");
    let new: Vec<_> = declared.difference(&kept).collect();
    assert!(new.is_empty(), "not in {file} yet: {new:#?}");

    let symbol = format!("uint64_t signalfern_abi_{}(void);", version.join("_"));
    assert!(declared.contains(&symbol), "no {symbol}");
}

/// The test above sees each change of a declaration, and no change of a comment, a blank or an inline body.
#[test]
fn declarations_are_compared_word_by_word() {
    let header = header();
    let before = declared(&header);
    for (old, new) in [
        (
            "uint64_t number;  /* Refused",
            "int64_t number;  /* Refused",
        ),
        ("    uint64_t last; /*", "    uint32_t last; /*"),
        (
            "uint32_t id, signalfern_answer *answer);",
            "uint64_t id, signalfern_answer *answer);",
        ),
        ("void signalfern_check_to(", "int signalfern_check_to("),
        (
            "} signalfern_part;",
            "    uint64_t more;\n} signalfern_part;",
        ),
    ] {
        assert!(header.contains(old), "{old}");
        assert_ne!(declared(&header.replace(old, new)), before, "{new}");
    }
    for (old, new) in [
        ("/* The smallest value", "/* the least value"),
        ("    return answer;", "    return (answer);"),
        ("\n    uint64_t kind;", "\n\n    uint64_t  kind;"),
    ] {
        assert!(header.contains(old), "{old}");
        assert_eq!(declared(&header.replace(old, new)), before, "{new}");
    }
}

/// The archive itself says its version, in the name of a proved call.
#[test]
fn the_archive_has_its_version_in_a_name() {
    let archive = concat!(env!("SIGNALFERN_ARCHIVE_DIR"), "/libsignalfern_c.a");
    let nm = Command::new("nm")
        .args(["-g", "--defined-only", archive])
        .output();
    let shown = String::from_utf8(nm.unwrap().stdout).unwrap();
    let names: Vec<&str> = (shown.split_whitespace())
        .filter(|name| name.starts_with("signalfern_abi_"))
        .collect();
    let version = env!("CARGO_PKG_VERSION").rsplit_once('.').unwrap().0;
    assert_eq!(
        names,
        [format!("signalfern_abi_{}", version.replace('.', "_"))]
    );
}
