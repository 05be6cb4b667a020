//! The tool, as a person or a script runs it: the main ways.

use std::fs;
use std::process::Stdio;

use crate::common::parts::{self, Parts};
use crate::common::tool::{names_in, run, run_with, tool, Folder};
use signalfern::Edition;

fn small_column() -> Vec<u8> {
    signalfern::write_to_vec(&[0, 2, 7], &[150, 140, 135], Edition::Plain, 9).unwrap()
}

#[test]
fn there_and_back() {
    let folder = Folder::new("there_and_back");
    let list = folder.put("list", "# scores\n0 150\n2 140\n\n7 135\n");
    let column = folder.path("column");
    run(&["write", &list, "-o", &column]).expect(0, &["3 pairs in 27 bytes"]);
    assert_eq!(fs::read(&column).unwrap(), small_column());
    run(&["check", &column]).expect(0, &["sound, 3 pairs in 27 bytes"]);
    let read = run(&["read", &column]).expect(0, &[]);
    assert_eq!(read.out, "0 150\n2 140\n7 135\n");
    let asked = run(&["look-up", &column, "7", "5", "2147352575"]).expect(0, &[]);
    // Places 0, 2 and 7: the one in the middle is probed first. The last id's block is not there.
    let answers = "7 135 ordinal 2 words 0 probes 2\n5 absent words 0 probes 2\n\
                   2147352575 absent words 0 probes 0\n";
    assert_eq!(asked.out, answers);
    run(&["show", &column]).expect(0, &["smallest value", "135", "sparse", "end block"]);

    // Standard input, an own power, and an output that is there already.
    let written = run_with(&["write", "--power=0", "-", "-o", &column], b"65536 -1\n");
    written.expect(0, &["1 pair in 45 bytes"]);
    let again = folder.path("again");
    run(&["read", &column, "--output", &again]).expect(0, &[]);
    assert_eq!(fs::read_to_string(&again).unwrap(), "65536 -1\n");
    run_with(&["write", "-fo", &column], b"").expect(0, &["0 pairs in 23 bytes"]);
    let bytes = fs::read(&column).unwrap();
    run_with(&["check", "-"], &bytes).expect(0, &["standard input: sound, 0 pairs"]);
    run(&["show", &column]).expect(0, &["Blocks of 65536 ids (0)"]);
    assert_eq!(folder.names(), ["again", "column", "column.sha256", "list"]);
}

#[test]
fn lists_that_are_refused_leave_nothing() {
    let folder = Folder::new("refused_lists");
    let kept = folder.put("kept", small_column());
    for (text, words) in [
        ("1 2\n\n4 4\n4 5\n", &["line 4: refusal 3, ORDER"][..]),
        ("7 1\n2147352576 4\n", &["line 2: refusal 4, RANGE"]),
        ("7 1\n99999999999 1\n", &["line 2: refusal 4, RANGE"]),
        ("7 1\n8\n", &["line 2: refusal 101, TEXT: `8` has no value"]),
        (
            "7 1\n8 x\n",
            &["line 2: refusal 101, TEXT: `x` is no value"],
        ),
    ] {
        let list = folder.put("list", text);
        for output in [&folder.path("new"), &kept] {
            run(&["write", &list, "-o", output]).expect(1, words);
        }
        run_with(&["write", "-o", &kept], text.as_bytes()).expect(1, words);
        assert_eq!(folder.names(), ["kept", "list"]);
        assert_eq!(fs::read(&kept).unwrap(), small_column());
    }
}

/// Files that are no columns, and how each is refused.
fn no_columns() -> Vec<(&'static str, Vec<u8>, &'static str)> {
    let sound = small_column();
    let mut damaged = sound.clone();
    damaged[26] |= 1;
    let mut broken = sound.clone();
    broken[12] = 3; // Four places where there is room for three.
    let mut huge = Parts::of(&sound);
    huge.numbers[parts::COUNT] = signalfern::MAX_COUNT;
    huge.numbers[parts::WIDTH] = 0;
    huge.numbers[parts::VALUE_BYTES] = 0;
    let huge_count = huge.bytes();
    huge.values.clear();
    let claims_all = huge.bytes();
    huge.numbers[parts::ID_BYTES] = u64::MAX;
    let mut too_many = Parts::of(&sound);
    too_many.numbers[parts::COUNT] = u64::MAX;
    let eleven = [&[0xFF; 11][..], &sound].concat();
    let extended = [&sound[..], &[0]].concat();
    vec![
        ("empty", Vec::new(), "refusal 7, SHORT"),
        ("header cut", sound[..5].to_vec(), "refusal 7, SHORT"),
        ("eleven bytes", eleven, "refusal 8, NUMBER"),
        ("text", b"0 150\n2 140\n".to_vec(), "refusal 9, EDITION"),
        ("too many", too_many.bytes(), "refusal 10, HEADER"),
        ("cut", sound[..20].to_vec(), "refusal 11, LENGTH"),
        ("extended", extended, "refusal 11, LENGTH"),
        ("huge count", huge_count, "refusal 11, LENGTH"),
        ("huge section", huge.bytes(), "refusal 11, LENGTH"),
        ("claims all", claims_all, "refusal 13, DAMAGED"),
        ("spare bit", damaged, "refusal 13, DAMAGED"),
        ("broken", broken, "refusal 13, DAMAGED"),
    ]
}

#[test]
fn files_that_are_no_columns() {
    let folder = Folder::new("no_columns");
    for (name, bytes, refusal) in no_columns() {
        let file = folder.put("file", &bytes);
        let output = folder.path("output");
        run(&["check", &file]).expect(1, &[&file, refusal, "What to do: "]);
        run(&["read", &file]).expect(1, &[&file, refusal]);
        run(&["read", &file, "-o", &output]).expect(1, &[&file, refusal]);
        run(&["look-up", &file, "2"]).expect(1, &[&file, refusal]);
        let shown = run(&["show", &file]).expect_all(1, &["What to do: "]);
        assert!(
            shown.err.contains(refusal) && shown.out.contains("REFUSED"),
            "{name}"
        );
        // By a pipe, of which nobody knows the length, it is the same.
        let piped = run_with(&["check", "-"], &bytes);
        piped.expect(1, &["standard input: ", refusal]);
        assert_eq!(folder.names(), ["file"], "{name}");
    }
}

#[test]
fn ids_that_are_too_great() {
    let folder = Folder::new("great_ids");
    let file = folder.put("file", small_column());
    for id in ["2147352576", "4294967296"] {
        run(&["look-up", &file, id]).expect(1, &[&format!("id {id}: refusal 14, ID")]);
    }
    // The others get their answers all the same.
    let asked = run(&["look-up", &file, "2147352576", "7"]);
    assert_eq!(
        (asked.status, asked.out.as_str()),
        (1, "7 135 ordinal 2 words 0 probes 2\n")
    );
}

#[test]
fn show_stays_short() {
    let folder = Folder::new("show");
    // Neighbours of one kind stand in one row; three thousand rows are summed up.
    let near: Vec<u32> = (0..3000).map(|block| block << 16).collect();
    let far: Vec<u32> = (0..3000).map(|block| (block << 17) | 5).collect();
    for (ids, row) in [
        (near, "0 to 2999"),
        (far, "2975 blocks in 2975 rows left out"),
    ] {
        let bytes = signalfern::write_to_vec(&ids, &vec![-1; 3000], Edition::Plain, 9).unwrap();
        let shown = run(&["show", &folder.put("column", bytes)]).expect(0, &[row]);
        assert!(shown.out.lines().count() < 60, "{}", shown.out);
    }
}

#[test]
fn a_reader_that_has_enough() {
    let folder = Folder::new("closed_pipe");
    let ids: Vec<u32> = (0..200_000).collect();
    let column = folder.column("column", &ids, &vec![1; ids.len()]);
    let mut child = tool()
        .args(["read", &column])
        .stdout(Stdio::piped())
        .stderr(Stdio::piped())
        .spawn()
        .unwrap();
    drop(child.stdout.take());
    let output = child.wait_with_output().unwrap();
    assert!(output.status.success());
    assert!(output.stderr.is_empty());
}

#[test]
fn the_demo() {
    let folder = Folder::new("demo");
    let path = folder.path("new");
    let shown = run(&["demo", &path]);
    let words = ["$ signalfern check", "the same lines", "dense", "Where the"];
    let shown = shown.expect(0, &words);
    // Every id's score is 135 and five times the rest of seven times the id by twelve.
    let next = "60000 135 ordinal 3\n70001 190 ordinal 4\n70004 175 ordinal 5\n";
    assert!(shown.out.contains(next), "{}", shown.out);
    // Place 4465 of block 1 is in word 69, the sixth of its stride.
    let corrected = "7 200 by correction ordinal 0 words machine 0 correction 0\n\
                     70000 90 by correction ordinal 1 words machine 0 correction 0\n\
                     70001 190 by machine ordinal 4 words machine 6 correction 0\n";
    assert!(shown.out.contains(corrected), "{}", shown.out);
    let found = "runs.column 185 1000\n70001 190 ordinal 4\n";
    assert!(shown.out.contains(found), "{}", shown.out);
    // 1000 pairs: 12 bytes of header, 2010 of ids, and values of 30 bits, of 32, of 30 with a directory, or of 2
    // with a table.
    let values = [3750, 4000, 25 + 3750, 32 + 250].map(|bytes| 12 + 2010 + bytes);
    let sizes: String = (1..)
        .zip(values)
        .map(|(edition, bytes)| format!("edition {edition}: {bytes} bytes\n"))
        .collect();
    assert!(shown.out.contains(&sizes), "{}", shown.out);
    let entry = "\n     3           1000000007          100  10.0%  #######\n";
    assert!(shown.out.contains(entry), "{}", shown.out);
    let left = [
        "again.txt",
        "correction.column",
        "correction.column.sha256",
        "correction.txt",
        "few.column",
        "few.column.sha256",
        "few.txt",
        "runs.column",
        "runs.column.sha256",
        "scores.column",
        "scores.column.sha256",
        "scores.txt",
    ];
    assert_eq!(names_in(&path), left);

    // What is there already stays, whichever of the files it is.
    run(&["demo", &path]).expect(2, &["scores.txt is there already"]);
    let other = Folder::new("demo_again");
    other.put("again.txt", "mine");
    run(&["demo", other.0.to_str().unwrap()]).expect(2, &["again.txt is there already"]);
    assert_eq!(other.names(), ["again.txt"]);

    // Without a folder it says where the files are.
    let shown = tool().arg("demo").env("TMPDIR", &path).output().unwrap();
    let shown = String::from_utf8(shown.stdout).unwrap();
    let (_, place) = shown.trim_end().rsplit_once("The files are in ").unwrap();
    assert!(place.starts_with(&path), "{place}");
    assert_eq!(names_in(place), left);
}
