//! Columns of edition 3 by the tool: written, shown, searched for a value, audited and explained.

use crate::common::parts::{self, Parts};
use crate::common::runs::{with, Number};
use crate::common::tool::{run, run_with, Folder};
use signalfern::Edition;

/// 16384 times -7; then 0 to 4 over and over, 16384 of them; then 1000 and 3000. Ids are every third.
fn scores() -> (Vec<u32>, Vec<i64>) {
    let mut values = vec![-7; 16_384];
    values.extend((0..16_384).map(|i| i % 5));
    values.extend([1000, 3000]);
    let ids = (0..values.len() as u32).map(|i| 3 * i).collect();
    (ids, values)
}

fn put(folder: &Folder, name: &str, edition: Edition) -> String {
    let (ids, values) = scores();
    folder.put(
        name,
        signalfern::write_to_vec(&ids, &values, edition, 9).unwrap(),
    )
}

#[test]
fn written_and_shown() {
    let folder = Folder::new("runs");
    let (ids, values) = scores();
    let lines: String = (ids.iter().zip(&values))
        .map(|(id, value)| format!("{id} {value}\n"))
        .collect();
    let list = folder.put("list", lines);
    let column = folder.path("column");
    run(&["write", &list, "-o", &column, "--edition", "3"]).expect(0, &["32770 pairs in "]);
    let expected = signalfern::write_to_vec(&ids, &values, Edition::Runs, 9).unwrap();
    assert_eq!(folder.bytes("column"), expected);
    assert_eq!(
        run(&["read", &column]).expect(0, &[]).out.into_bytes(),
        folder.bytes("list")
    );
    // Three entries, 3 bits for 16384 values, and 11 bits for two: g is 1, and 2000 is stored.
    let shown = run(&["show", &column]).expect(0, &[]).out;
    for words in [
        "edition                3  values in runs of 16384 with a width each, high bit first\n",
        "width (w)              0  each run has its own\n",
        "smallest value         0  each run has its own\n",
        "\nRuns of 16384 values (3)\n     ordinal             smallest             greatest      start width\n",
        "\n           0                   -7                   -7          0     0\n",
        "\n       16384                    0                    4          0     3  ##\n",
        "\n       32768                 1000                 3000       6144    11  ######\n",
        "\n  run directory            75 ",
        "\n  values                 6147 ",
    ] {
        assert!(shown.contains(words), "{words}\n{shown}");
    }
    // One run, and none.
    let one = folder.put(
        "one",
        signalfern::write_to_vec(&[7], &[-1], Edition::Runs, 9).unwrap(),
    );
    run(&["show", &one]).expect(0, &["Runs of 16384 values (1)\n"]);
    let none = folder.put(
        "none",
        signalfern::write_to_vec(&[], &[], Edition::Runs, 9).unwrap(),
    );
    run(&["show", &none]).expect(0, &["Runs of 16384 values (0)\n\nWhere the 23 bytes"]);
    // Other editions have none.
    let plain = put(&folder, "plain", Edition::Plain);
    let shown = run(&["show", &plain]).expect(0, &[]).out;
    assert!(
        !shown.contains("Runs of") && !shown.contains("run directory"),
        "{shown}"
    );
}

/// More runs than are shown: the first 20 and the last 5.
#[test]
fn many_runs() {
    let folder = Folder::new("runs_many");
    let mut parts = Parts::full_blocks(8);
    (parts.numbers[parts::EDITION], parts.numbers[parts::LEAST]) = (3, 0);
    let mut entry = [0; 25];
    (entry[0], entry[8]) = (42, 42);
    parts.values = entry.repeat(32);
    let column = folder.put("column", parts.bytes_with_lengths());
    let shown = run(&["show", &column])
        .expect(0, &["  ... 7 runs left out ...\n"])
        .out;
    let rows = shown
        .lines()
        .filter(|line| line.contains("   42                   42 "));
    assert_eq!(rows.count(), 25);
    assert!(
        shown.contains(&format!("\n{:>12} ", 31 * 16_384)),
        "{shown}"
    );
}

#[test]
fn the_first_in_a_range() {
    let folder = Folder::new("runs_find");
    let column = put(&folder, "column", Edition::Runs);
    for (low, high, line) in [
        ("-7", "-7", "0 -7 ordinal 0\n"),
        ("-6", "-1", "none from -6 to -1\n"),
        ("-6", "0", "49152 0 ordinal 16384\n"),
        ("4", "999", "49164 4 ordinal 16388\n"),
        ("5", "2999", "98304 1000 ordinal 32768\n"),
        ("1001", "9223372036854775807", "98307 3000 ordinal 32769\n"),
        (
            "3001",
            "9223372036854775807",
            "none from 3001 to 9223372036854775807\n",
        ),
        (
            "-9223372036854775808",
            "-8",
            "none from -9223372036854775808 to -8\n",
        ),
    ] {
        assert_eq!(run(&["find", &column, low, high]).expect(0, &[]).out, line);
    }
    let ran = run_with(&["find", "-", "-6", "4"], &folder.bytes("column")).expect(0, &[]);
    assert_eq!(ran.out, "49152 0 ordinal 16384\n");
    let ran = run(&["find", "--json", &column, "-7", "4"]).expect(0, &[]);
    let found = "\"answer\":\"found\",\"id\":0,\"value\":\"-7\",\"ordinal\":\"0\"}";
    assert_eq!(
        ran.out,
        format!("{{\"low\":\"-7\",\"high\":\"4\",{found}\n")
    );
    let ran = run(&["find", &column, "5", "6", "--json"]).expect(0, &[]);
    assert_eq!(
        ran.out,
        "{\"low\":\"5\",\"high\":\"6\",\"answer\":\"none\"}\n"
    );
    // As one would type it with a word that ends the options.
    let ran = run(&["find", "--", &column, "-6", "4"]).expect(0, &[]);
    assert_eq!(ran.out, "49152 0 ordinal 16384\n");
    // In a column of two thousand million pairs.
    let mut parts = Parts::full_blocks(32_766);
    (parts.numbers[parts::EDITION], parts.numbers[parts::LEAST]) = (3, 0);
    let mut entry = [0; 25];
    (entry[0], entry[8]) = (42, 42);
    parts.values = entry.repeat(131_063);
    (entry[0], entry[8]) = (43, 43);
    parts.values.extend(entry);
    let all = folder.put("all", parts.bytes_with_lengths());
    let ran = run(&["find", &all, "43", "99"]).expect(0, &[]);
    let first = 131_063 * 16_384_u32;
    assert_eq!(ran.out, format!("{first} 43 ordinal {first}\n"));
}

#[test]
fn what_is_not_searched() {
    let folder = Folder::new("runs_refused");
    // By its directory alone the call would say that there is none.
    put(&folder, "column", Edition::Runs);
    let sound = Parts::of(&folder.bytes("column"));
    let bytes = with(&sound, 1, Number::Greatest, 3).bytes();
    assert_eq!(signalfern::first_between(&bytes, 4, 4), Ok(None));
    let damaged = folder.put("damaged", &bytes);
    run(&["find", &damaged, "4", "4"]).expect(1, &["refusal 13, DAMAGED", "signalfern check"]);
    let short = folder.put("short", &bytes[..20]);
    run(&["find", &short, "4", "4"]).expect(1, &["refusal 11, LENGTH"]);
    run(&["find", "none", "4", "4"]).expect(2, &["cannot read none"]);
}

#[test]
fn the_bytes_that_hold_a_value() {
    let folder = Folder::new("runs_audit");
    let column = put(&folder, "column", Edition::Runs);
    let empty = folder.column("empty", &[], &[]);
    let start = folder.bytes("column").len() - 75 - 6147;
    let place = |at: usize| format!("byte {at} (0x{at:X})");
    let audit = |id: &str| {
        let ran = run(&["audit", &column, id, "-c", &empty]).expect(0, &[]);
        ran.of_ids().to_string()
    };
    // No bits: what the directory says is the value.
    let told = format!(
        "id 3: value -7, ordinal 1, by the machine column {column}\n  \
         run 0: from -7 to -7, 0 bits for each value, told at {}\n  \
         no bits are stored: every value of the run is -7\n",
        place(start)
    );
    assert_eq!(audit("3"), told);
    // The second of the last run: 2000 is 11111010000, after eleven bits of 0.
    let told = format!(
        "id 98307: value 3000, ordinal 32769, by the machine column {column}\n  \
         value section: 6222 bytes, from {} on\n  \
         run 2: from 1000 to 3000, 11 bits for each value, told at {}\n  \
         stored number 32769: 2000, in 11 bits from bit {} of the section on; 1000 + 1 * 2000 = 3000\n  \
         {}: 1F  000[11111]\n  \
         {}: 40  [010000]00\n",
        place(start),
        place(start + 50),
        8 * (75 + 6144) + 11,
        place(start + 75 + 6144 + 1),
        place(start + 75 + 6144 + 2),
    );
    assert_eq!(audit("98307"), told);
}

#[test]
fn what_is_wrong_with_one() {
    let folder = Folder::new("runs_wrong");
    put(&folder, "column", Edition::Runs);
    let sound = Parts::of(&folder.bytes("column"));
    let at = folder.bytes("column").len() - sound.values.len();
    let check = |column: &Parts, words: &[&str]| {
        let file = folder.put("file", column.bytes());
        run(&["check", &file]).expect(1, words);
    };
    let mut width = sound.clone();
    width.numbers[parts::WIDTH] = 3;
    let words = "width 3, and in edition 3 it is 0: its runs have their own: see width (w) at byte";
    check(&width, &["refusal 10, HEADER", words]);
    let mut least = sound.clone();
    least.numbers[parts::LEAST] = 3;
    let words = "smallest value -2, and in edition 3 it is 0: its runs have their own";
    check(&least, &["refusal 10, HEADER", words]);
    let mut short = sound.clone();
    short.numbers[parts::VALUE_BYTES] = 74;
    let words = "a value section of 74 bytes, and the directory of 3 runs takes 75";
    check(&short, &["refusal 10, HEADER", words]);
    let start = with(&sound, 2, Number::Start, 6145);
    let words = format!(
        "byte {}, start of run 2 in the directory: 6145, and the runs before it end at 6144",
        at + 66
    );
    check(&start, &["refusal 13, DAMAGED", &words]);
    // Shown as far as it goes, with what the directory says.
    let file = folder.put("file", start.bytes());
    let words = [
        "REFUSED (13, DAMAGED)",
        "Runs of 16384 values (3, as far as",
        " 6145    11  ######\n",
    ];
    run(&["show", &file]).expect_all(1, &words);
    let wide = with(&sound, 1, Number::Width, 255);
    let file = folder.put("file", wide.bytes());
    let bar = format!("   255  {}\n", "#".repeat(32));
    run(&["show", &file]).expect_all(1, &["at most 64 bits are allowed", &bar]);
    // Cut off within the directory.
    let file = folder.put("file", &sound.bytes()[..at + 40]);
    run(&["show", &file]).expect_all(
        1,
        &["refusal 11, LENGTH", "Runs of 16384 values (1, as far"],
    );
}
