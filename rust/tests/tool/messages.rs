//! What the tool says about input that it does not take.

use crate::common::tool::{run, run_with, Folder};
use signalfern::Edition;

#[test]
fn causes_are_named() {
    let utf_16: Vec<u8> = "1 2\n3 4\n"
        .encode_utf16()
        .flat_map(u16::to_le_bytes)
        .collect();
    let big_endian: Vec<u8> = "1 2\n3 4\n"
        .encode_utf16()
        .flat_map(u16::to_be_bytes)
        .collect();
    let column =
        signalfern::write_to_vec(&[0, 2, 7], &[150, 140, 135], Edition::Plain, 10).unwrap();
    for (text, words) in [
        (&b"\xFF\xFE1\x002\x00"[..], "this is UTF-16 text: save it as UTF-8"),
        (&utf_16, "this is UTF-16 text: save it as UTF-8"),
        (&big_endian, "this is UTF-16 text: save it as UTF-8"),
        (&column, "this is a column already: `signalfern read` prints its pairs"),
        (b"\x1F\x8B\x08\x00", "this is a gzip file"),
        (b"1,2\n3,4\n", "`1,2` has no value: a line is `ID VALUE`; set id and value apart by a space, not by a comma"),
        (b"1 2\n3; 4\n", "line 2: refusal 101, TEXT: `3;` is no id: a whole number from 0 to 2147352575; set id"),
        (b"id score\n1 2\n", "`id` is no id: a whole number from 0 to 2147352575; if this is a header line"),
        (b"# remark\nid score\n", "line 2: refusal 101, TEXT: `id` is no id"),
        (b"1 2\n\xE9 3\n", "line 2: refusal 101, TEXT: `\\xE9` is no id: a whole number from 0 to 2147352575; this is no UTF-8"),
        (b"1 2\n3 4 5\n", "line 2: refusal 101, TEXT: `5` is one word too many"),
        (b"-1 2\n", "`-1` is no id"),
        ("1 \u{2212}5\n".as_bytes(), "there is the sign U+2212 in it where the plain minus sign, -, should stand"),
        ("1\u{a0}5\n".as_bytes(), "there is the no-break space U+00A0 in it"),
        ("1 12\u{202f}345\n".as_bytes(), "there is the no-break space U+202F in it"),
        (b"1 2\r3 4\r5 6\r", "line 1: refusal 101, TEXT: `3` is one word too many: a line is `ID VALUE`; lines \
          end in a return (CR) alone: change them to line feeds: `tr '\\r' '\\n'`"),
        (b"{\"id\": 1}\n", "if these are JSON lines, read them as such: --format json"),
        (b"1 1.5\n", "`1.5` is no value: a whole number from -9223372036854775808"),
        (b"\n1 9223372036854775808\n", "line 2: refusal 101, TEXT: `9223372036854775808` is no value"),
        (b"1 2\n4294967296 3\n", "line 2: refusal 4, RANGE: `4294967296` is no id: it is above"),
        (b"1 2\n2147352576 3\n", "line 2: refusal 4, RANGE: id 2147352576 is above the greatest allowed, 2147352575"),
        (b"5 1\n\n5 2\n", "line 3: refusal 3, ORDER: id 5 is not above id 5 of line 1; an id may stand once"),
        (b"5 1\n# x\n9 2\n7 2\n", "line 4: refusal 3, ORDER: id 7 is not above id 9 of line 3; sort the lines by id"),
    ] {
        let folder = Folder::new("causes");
        let ran = run_with(&["write", "-o", &folder.path("new")], text);
        ran.expect(1, &["signalfern: standard input: line ", words]);
        let list = folder.put("list", text);
        run(&["write", &list, "-o", &folder.path("new")]).expect(1, &[words]);
        assert_eq!(folder.names(), ["list"]);
    }
}

#[test]
fn a_power_that_is_not_allowed_is_a_wrong_command_line() {
    let folder = Folder::new("powers");
    let list = folder.put("list", "1 2\n");
    for power in ["6", "16", "-1", "x", "", "4294967305"] {
        let output = folder.path("new");
        let ran = run(&["write", &list, "-o", &output, "--power", power]);
        ran.expect(2, &["is no rank power: 0, or 7 to 15", "--help"]);
    }
    assert_eq!(folder.names(), ["list"]);
}

/// Nothing in a file or in its name reaches the terminal as a command to it.
#[test]
fn foreign_text_is_escaped_and_cut() {
    let folder = Folder::new("foreign");
    let name = "evil\u{1b}[2J\nname\u{202e}";
    let file = folder.put(name, "7 \u{1b}]0;x\u{7}\n");
    let column = folder.path("new");
    for ran in [
        run(&["write", &file, "-o", &column]),
        run(&["check", &file]),
        run(&["read", &file]),
        run(&["look-up", &file, "7"]),
        run(&["look-up", &file, "7\u{1b}[2J"]),
        run(&["check", &format!("{file}-none")]),
        run(&["check", "--json", &file]),
        run(&["\u{1b}[2J"]),
        run(&["check", "--\u{1b}[2J", &file]),
    ] {
        assert_ne!(ran.status, 0);
        for text in [&ran.out, &ran.err] {
            let is_bad = |sign: char| sign != '\n' && sign.is_control() || sign == '\u{202e}';
            assert!(!text.contains(is_bad), "{text:?}");
            assert!(!text.contains("\nname"), "{text:?}");
        }
    }
    let long = "9".repeat(5000);
    for ran in [
        run_with(&["write", "-o", &column], format!("{long} 1\n").as_bytes()),
        run_with(&["write", "-o", &column], format!("1 {long}\n").as_bytes()),
        run_with(&["write", "-o", &column], format!("x{long}\n").as_bytes()),
        run(&["look-up", &folder.column("column", &[1], &[1]), &long]),
        run(&["look-up", "column", &format!("x{long}")]),
        run(&[&long]),
    ] {
        assert_ne!(ran.status, 0);
        assert!(ran.err.contains("..."), "{}", ran.err);
        assert!(ran.err.lines().all(|line| line.len() < 400), "{}", ran.err);
    }
}

/// A file that is no column, given to `check`.
#[test]
fn strangers_are_named() {
    let folder = Folder::new("strangers");
    for (bytes, words) in [
        (
            &b"0 150\n2 140\n"[..],
            [
                "this is text; its first line is `0 150`",
                "signalfern write FILE -o COLUMN",
            ],
        ),
        (
            b"\xEF\xBB\xBF0 150\n",
            [
                "after a byte order mark, is `0 150`",
                "signalfern write FILE -o COLUMN",
            ],
        ),
        (
            b"\x1F\x8B\x08\x00\x00\x00",
            [
                "this is a gzip file\n",
                "What to do: unpack it first, and see whether it is then the right file.",
            ],
        ),
        (
            b"\x7FELF\x02\x01\x01\x00",
            [
                "it starts with the bytes 7F 45 4C 46 02 01 01 00",
                "the right file",
            ],
        ),
        (b"", ["the file is empty", "take the file again"]),
        (
            b"ba7816bf8f01cfea414140de5dae2223b00361a396177a9cb410ff61f20015ad  column\n",
            ["a file of digests (.sha256)", "name the column"],
        ),
    ] {
        let file = folder.put("file", bytes);
        run(&["check", &file]).expect(1, &words);
    }
}

/// Zero bytes that a conversion of text took out.
#[test]
fn stripped_zeros() {
    let folder = Folder::new("stripped");
    for ids in [&[0, 2, 7][..], &[0, 2, 70_000], &[5], &[]] {
        let values: Vec<i64> = ids.iter().map(|id| i64::from(*id) * 3).collect();
        folder.column("column", ids, &values);
        let ran = folder.shell("tr -d '\\0' < column > file; signalfern check file");
        ran.expect(1, &["zero bytes were taken out of it", "in binary mode"]);
    }
}

/// What is to be typed can be typed: names are quoted for a shell.
#[test]
fn names_in_advice() {
    let folder = Folder::new("typed");
    for name in ["two words", "it's", "-dash", "line\nend", "$x"] {
        folder.put(name, "no column");
        let ran = run(&["look-up", &folder.path(name), "7"]);
        assert_eq!(ran.status, 1);
        let (_, rest) = ran.err.split_once("Try `").unwrap();
        let (command, _) = rest.rsplit_once('`').unwrap();
        folder.shell(command).expect(1, &["refusal 9, EDITION"]);
    }
    let ran = folder.shell("signalfern look-up -- -dash 7");
    ran.expect(1, &["Try `signalfern check ./-dash`"]);
}

#[test]
fn words_that_people_try() {
    for (word, meant) in [
        ("get", "look-up"),
        ("verify", "check"),
        ("cat", "read"),
        ("compare", "diff"),
    ] {
        let words = format!("there is no command `{word}`; did you mean `{meant}`?");
        run(&[word, "a", "7"]).expect(2, &[&words]);
    }
    run(&["set", "raed", "a"]).expect(2, &["did you mean `read`?"]);
}
