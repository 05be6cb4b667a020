//! Ids that are asked for: lists that end at a bad line, and questions that wait for their answers.

use std::io::{BufRead, BufReader, Write};
use std::process::Stdio;

use crate::common::tool::{run, run_with, tool, Folder};

#[test]
fn ranges_the_wrong_way_round() {
    let folder = Folder::new("wrong_ranges");
    let column = folder.column("column", &[0, 2, 7], &[150, 140, 135]);
    run(&["find", &column, "1000", "5"]).expect(2, &["LOW is above HIGH: 1000 and 5", "--help"]);
    run(&["read", &column, "--from", "8", "--to", "7"])
        .expect(2, &["--from is above --to: 8 and 7", "--help"]);
    run(&["read", &column, "--from", "7", "--to", "7"]).expect(0, &["7 135\n"]);
    run(&["find", &column, "135", "135"]).expect(0, &["7 135 ordinal 2\n"]);
}

/// The lines before a bad one are answered, and those after it are not.
#[test]
fn a_bad_line_ends_the_list() {
    let folder = Folder::new("bad_lines");
    let column = folder.column("column", &[0, 2, 7], &[150, 140, 135]);
    let set = folder.put("set", signalfern::set_write_to_vec(&[0, 7]).unwrap());
    for (list, answers, words) in [
        ("7\nx\n0\n", "7 135 ordinal 2\n", "line 2: refusal 101, TEXT: `x` is no id"),
        ("7 135\n2 140\n", "", "line 1: refusal 101, TEXT: `135` is one word too many: a line is an id, and this looks like a pair"),
        ("7\n\n# x\n7 0 2\n0\n", "7 135 ordinal 2\n", "line 4: refusal 101, TEXT: `0` is one word too many: a line is an id\n"),
        ("0\n-1\n", "0 150 ordinal 0\n", "line 2: refusal 101, TEXT: `-1` is no id"),
    ] {
        let file = folder.put("ids", list);
        for ran in [
            run(&["look-up", &column, "--ids", &file]),
            run_with(&["look-up", &column, "--ids", "-"], list.as_bytes()),
        ] {
            assert_eq!((ran.status, ran.out.as_str()), (1, answers));
            assert!(ran.err.contains(words), "{}", ran.err);
            assert_eq!(ran.err.lines().count(), 1, "{}", ran.err);
        }
        let ran = run(&["set", "find", &set, "--ids", &file]);
        assert_eq!(ran.status, 1);
        assert!(ran.err.contains(words), "{}", ran.err);
        let ran = run(&["audit", &column, "--ids", &file]);
        ran.expect(1, &[words]);
    }
    let help = run(&["help", "look-up"]).expect(0, &[]).out;
    let help = help.split_whitespace().collect::<Vec<_>>().join(" ");
    assert!(
        help.contains("A line that is no id, as one of a list of pairs, ends it"),
        "{help}"
    );
}

/// Each line of a pipe is answered before the next one comes.
#[test]
fn answers_as_the_lines_come() {
    let folder = Folder::new("interactive");
    let column = folder.column("column", &[0, 2, 7], &[150, 140, 135]);
    let correction = folder.column("correction", &[2], &[-1]);
    let set = folder.put("set", signalfern::set_write_to_vec(&[0, 7]).unwrap());
    for (words, answers) in [
        (
            &["look-up", &column, "--ids", "-"][..],
            ["7 135 ordinal 2\n", "5 absent\n"],
        ),
        (
            &["look-up", &column, "-c", &correction, "--ids", "-"],
            ["7 135 by machine ordinal 2\n", "5 absent\n"],
        ),
        (
            &["set", "find", &set, "--ids", "-"],
            ["7 ordinal 1\n", "5 absent\n"],
        ),
    ] {
        let mut child = tool()
            .args(words)
            .stdin(Stdio::piped())
            .stdout(Stdio::piped())
            .spawn()
            .unwrap();
        let mut input = child.stdin.take().unwrap();
        let mut output = BufReader::new(child.stdout.take().unwrap());
        for (id, answer) in ["7\n", "5\n"].into_iter().zip(answers) {
            input.write_all(id.as_bytes()).unwrap();
            input.flush().unwrap();
            let mut line = String::new();
            // A tool that waits for more would have this wait for ever; the tests' own limit ends it.
            output.read_line(&mut line).unwrap();
            assert_eq!(line, answer);
        }
        drop(input);
        assert!(child.wait().unwrap().success());
    }
}

/// More than one page, in any order, with ids above the limit among them.
#[test]
fn pages_in_any_order() {
    let folder = Folder::new("pages");
    let listed: Vec<u32> = (0..300_000).filter(|id| id % 3 == 0).collect();
    let values: Vec<i64> = listed.iter().map(|&id| i64::from(id) * 10 - 7).collect();
    let column = folder.column("column", &listed, &values);
    let set = folder.put("set", signalfern::set_write_to_vec(&listed).unwrap());
    let ids: Vec<u32> = (0..1_200_000_u64)
        .map(|i| (i * 7_919_777 % 300_000) as u32)
        .collect();
    let (mut lines, mut expected, mut members) = (String::new(), String::new(), String::new());
    for (index, id) in ids.iter().enumerate() {
        lines += &format!("{id}\n");
        if index % 400_000 == 7 {
            lines += "2147352576\n";
        }
        expected += &match id % 3 {
            0 => format!("{id} {} ordinal {}\n", i64::from(*id) * 10 - 7, id / 3),
            _ => format!("{id} absent\n"),
        };
        members += &match id % 3 {
            0 => format!("{id} ordinal {}\n", id / 3),
            _ => format!("{id} absent\n"),
        };
    }
    let file = folder.put("ids", lines);
    for (words, expected) in [
        (&["look-up", &column, "--ids", &file][..], &expected),
        (&["set", "find", &set, "--ids", &file], &members),
    ] {
        let ran = run(words);
        assert_eq!(ran.status, 1);
        assert!(ran.out == *expected, "{words:?}");
        let told: Vec<&str> = ran.err.lines().collect();
        assert_eq!(told.len(), 3, "{}", ran.err);
        assert!(
            told[1].contains("ids: line 400010: id 2147352576: refusal 14, ID"),
            "{}",
            ran.err
        );
    }
}
