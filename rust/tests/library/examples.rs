//! The Rust examples run, and print what they are there to show.

use std::path::Path;
use std::process::Command;

use crate::common::tool::Folder;

/// Runs an example, which `cargo test` has built beside the tool.
fn run(name: &str, words: &[&str]) -> String {
    let tool = Path::new(env!("CARGO_BIN_EXE_signalfern"));
    let example = tool.parent().unwrap().join("examples").join(name);
    let ran = Command::new(&example)
        .args(words)
        .output()
        .unwrap_or_else(|error| panic!("{}: {error}", example.display()));
    let err = String::from_utf8_lossy(&ran.stderr);
    assert!(ran.status.success(), "{}: {err}", ran.status);
    String::from_utf8(ran.stdout).unwrap()
}

#[test]
fn scores() {
    let folder = Folder::new("example-scores");
    // Nine header numbers of a byte each, two sparse blocks, the end block, three jump entries, and
    // four stored numbers of 6 bits, since (150 + 20) / 5 is 34.
    let len = 9 + (4 + 6) + (4 + 2) + 6 + 24 + 3;
    let expected =
        format!("4 pairs in {len} bytes\n2: 140\n3: not listed\nfrom 3 on:\n7 135\n70000 -20\n");
    let path = folder.path("scores.column");
    assert_eq!(run("scores", &[&path]), expected);
    // What it left is a column, to other eyes too.
    let seen = run("refused", &[&path]);
    assert_eq!(seen, format!("{path}: sound, 4 pairs\n"));
}

#[test]
fn refused() {
    let printed = run("refused", &[]);
    let starts = [
        "as it was written: sound, 3 pairs",
        "cut off: refusal 11, LENGTH: ",
        "cut off early: refusal 7, SHORT: the bytes, 5 in all, end within a number of the header",
        "a byte changed: refusal 13, DAMAGED: ",
        "a text: refusal 9, EDITION: ",
    ];
    assert_eq!(printed.lines().count(), starts.len());
    for (line, start) in printed.lines().zip(starts) {
        assert!(line.starts_with(start), "{line}");
    }
}

#[test]
fn look_up() {
    let printed = run("look_up", &[]);
    let lines: Vec<&str> = printed.lines().collect();
    // Words of a stride of eight: the first, the second (600 div 64 is 9), one for a clear bit, and
    // all. Of 656 places number 328 is probed first; the 327 above it can be halved nine times.
    let expected = "\
0: 0, the pair with ordinal 0; words 1, probes 0
600: 6000, the pair with ordinal 200; words 2, probes 0
601: not listed; words 1, probes 0
65535: 655350, the pair with ordinal 21845; words 8, probes 0
98336: 983360, the pair with ordinal 22174; words 0, probes 1
98337: not listed; words 0, probes 10";
    assert_eq!(lines[..6], expected.lines().collect::<Vec<_>>());
    // The flipped bit adds one to the rank of the first stride alone.
    assert_eq!(
        lines[7],
        "0: 30, the pair with ordinal 1; words 1, probes 0"
    );
    assert_eq!(lines[8], lines[1]);
    assert_eq!(lines[9], "the check: Err(Damaged)");
}
