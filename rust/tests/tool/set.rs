//! set: ids without values, by the tool.

use crate::common::tool::{run, run_with, Folder};

#[test]
fn written_checked_and_asked() {
    let folder = Folder::new("set");
    let (list, set) = (
        folder.put("list", "# ids\n0\n\n2\n 70000 \n"),
        folder.path("set"),
    );
    let about = "3 ids in 13 bytes, SHA-256 ";
    let ran = run(&["set", "write", &list, "-o", &set]).expect(0, &[about]);
    let digest = ran.out.trim_end().rsplit(' ').next().unwrap().to_string();
    let bytes = [2, 0, 0, 2, 0, 0, 2, 0, 1, 0, 1, 0x70, 0x11];
    assert_eq!(folder.bytes("set"), bytes);
    let ran = run(&["set", "check", &set]).expect(0, &[]);
    let told = format!("{set}: sound, {about}{digest} as {set}.sha256 tells\n");
    assert_eq!(ran.out, told);
    let ran = run(&["set", "find", &set, "70000", "5", "0"]).expect(0, &[]);
    assert_eq!(ran.out, "70000 ordinal 2\n5 absent\n0 ordinal 0\n");
    let ran = run_with(&["set", "find", "-", "2"], &folder.bytes("set")).expect(0, &[]);
    assert_eq!(ran.out, "2 ordinal 1\n");
    let ran = run_with(&["set", "write", "-o", "-"], b"0\n2\n70000\n");
    assert_eq!(ran.out.as_bytes()[0], 2);
    assert!(ran.err.contains(about), "{}", ran.err);
}

#[test]
fn lists_that_are_refused() {
    let folder = Folder::new("set_lists");
    let set = folder.path("set");
    for (list, words) in [
        (
            "4\n\n4\n",
            ["line 3: refusal 3, ORDER", "an id may stand once"],
        ),
        ("7\n4\n", ["line 2: refusal 3, ORDER", "sort -n"]),
        ("2147352576\n", ["line 1: refusal 4, RANGE", "2147352575"]),
        ("4294967296\n", ["line 1: refusal 4, RANGE", "2147352575"]),
        (
            "1 2\n",
            ["line 1: refusal 101, TEXT", "`2` is one word too many"],
        ),
        ("-1\n", ["line 1: refusal 101, TEXT", "`-1` is no id"]),
    ] {
        run_with(&["set", "write", "-o", &set], list.as_bytes()).expect(1, &words);
    }
    assert!(folder.names().is_empty());
    folder.put("set", [1, 0, 0, 1, 5, 0]);
    let words = ["standard input is empty", "empty set"];
    run(&["set", "write", "-o", &set]).expect(2, &words);
    run(&["set", "write", "-o", &set, "--force"]).expect(0, &["0 ids in 1 byte"]);
}

#[test]
fn files_that_are_no_sets() {
    let folder = Folder::new("set_files");
    let good = folder.put("good", [1, 0, 0, 1, 5, 0]);
    let cut = folder.put("cut", [1, 0]);
    let padded = folder.put("padded", [1, 0x80, 0]);
    let damaged = folder.put("damaged", [1, 0, 0, 1, 5]);
    run(&["set", "check", &cut]).expect(1, &["refusal 7, SHORT", "2 bytes end within a number"]);
    run(&["set", "check", &padded]).expect(1, &["refusal 8, NUMBER", "byte 2"]);
    let words = ["refusal 13, DAMAGED", "not the set of any list of ids"];
    run(&["set", "check", &damaged]).expect(1, &words);
    run(&["set", "find", &damaged, "5"]).expect(1, &words);
    // A column is no set.
    let column = folder.column("column", &[5], &[1]);
    run(&["set", "find", &column, "5"]).expect(1, &["refusal 13, DAMAGED"]);
    let ran = run(&["set", "check", &damaged, &good]);
    let ran = ran.expect_all(1, &["damaged: refusal 13", "good: sound, 1 id in 6 bytes"]);
    assert!(!ran.out.contains("damaged"));
    run(&["set", "check", "none"]).expect(2, &["cannot read none"]);
    let ran = run(&["set", "find", &good, "2147352576", "5"]);
    ran.expect_all(1, &["id 2147352576: refusal 14, ID", "5 ordinal 0\n"]);
}

#[test]
fn wrong_command_lines() {
    for (words, message) in [
        (&["set"][..], "write, check, read or find"),
        (
            &["set", "ask"],
            "`ask` is neither write, check, read nor find",
        ),
        (&["set", "write", "a"], "no output is named"),
        (&["set", "check"], "no set is named"),
        (
            &["set", "check", "a", "-f"],
            "`--force` is for `set write` and `set read`",
        ),
        (
            &["set", "check", "-", "-"],
            "standard input can be checked once",
        ),
        (&["set", "find", "a"], "no id is named"),
        (&["set", "find", "a", "x"], "`x` is no id"),
        (
            &["set", "write", "a", "b", "-o", "c"],
            "`b` is one word too many",
        ),
    ] {
        run(words).expect(2, &[message]);
    }
}
