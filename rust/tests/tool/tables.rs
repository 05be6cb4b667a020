//! Columns of edition 4 by the tool: written, the best edition chosen, shown, asked, audited and explained.

use crate::common::parts::{self, Parts};
use crate::common::tables::{far_apart, with_codes};
use crate::common::tool::{run, run_with, Folder};
use signalfern::Edition;

/// The lines of some pairs.
fn lines(ids: &[u32], values: &[i64]) -> String {
    let pairs = ids.iter().zip(values);
    pairs.map(|(id, value)| format!("{id} {value}\n")).collect()
}

/// Ten pairs: 1 five times, 0 three times, and the smallest value and -7 once each.
fn scores() -> (Vec<u32>, Vec<i64>) {
    let values = vec![1, 0, 1, i64::MIN, 1, 0, 1, -7, 0, 1];
    ((0..10).map(|i| 2 * i).collect(), values)
}

fn column() -> Vec<u8> {
    let (ids, values) = scores();
    signalfern::write_planned_to_vec(&ids, &values, &[i64::MIN, -7, 0, 1], 9).unwrap()
}

#[test]
fn written_and_shown() {
    let folder = Folder::new("tables");
    let (ids, values) = scores();
    let list = folder.put("list", lines(&ids, &values));
    let file = folder.path("column");
    // 9 bytes of header, 30 of ids, 32 of table and 20 bits of codes.
    let report = "column: 10 pairs in 74 bytes, SHA-256 ";
    run(&["write", &list, "-o", &file, "--edition", "4"]).expect(0, &[report]);
    assert_eq!(folder.bytes("column"), column());
    run(&["check", &file]).expect(0, &["sound, 10 pairs in 74 bytes"]);
    let read = run(&["read", &file]).expect(0, &[]).out;
    assert_eq!(read.into_bytes(), folder.bytes("list"));
    let shown = run(&["show", &file]).expect(0, &[]).out;
    for words in [
        "edition             4  codes into a table of the distinct values, high bit first\n",
        "width (w)           2  bits for each code\n",
        "smallest value      0  the table has all values\n",
        "divisor (g)         4  entries of the table\n",
        "\nTable of distinct values (4)\n  code                value        pairs\n",
        "\n     0 -9223372036854775808            1  10.0%  ########\n",
        "\n     1                   -7            1  10.0%  ########\n",
        "\n     2                    0            3  30.0%  ########################\n",
        "\n     3                    1            5  50.0%  ########################################\n",
        "\n  value table              32 ",
        "\n  values                    3 ",
    ] {
        assert!(shown.contains(words), "{words}\n{shown}");
    }
    assert!(!shown.contains("not made out"), "{shown}");
}

/// As many entries as there can be: the first 20 and the last 5 are shown.
#[test]
fn many_entries() {
    let folder = Folder::new("tables_many");
    let values = far_apart(256, 1000);
    let ids: Vec<u32> = (0..1000).collect();
    let list = folder.put("list", lines(&ids, &values));
    let file = folder.path("column");
    run(&["write", &list, "-o", &file, "-e4"]).expect(0, &["1000 pairs in "]);
    let words = [
        "Table of distinct values (256)\n",
        "  ... 231 codes left out ...\n",
    ];
    let shown = run(&["show", &file]).expect(0, &words).out;
    assert!(shown.contains("\n   255  9223372036854775807 "), "{shown}");
}

/// Where no table makes it shorter, edition 1 is written, and the tool says so.
#[test]
fn told_edition_4_in_vain() {
    let folder = Folder::new("tables_plain");
    let list = folder.put("list", "0 5\n1 6\n2 5\n3 6\n4 3000\n");
    let (plain, column) = (folder.path("plain"), folder.path("column"));
    run(&["write", &list, "-o", &plain]).expect(0, &["5 pairs in 37 bytes, SHA-256 "]);
    let report = "5 pairs in 37 bytes of edition 1, since no table makes it shorter, SHA-256 ";
    run(&["write", &list, "-o", &column, "-e", "4"]).expect(0, &[report]);
    assert_eq!(folder.bytes("column"), folder.bytes("plain"));
    // To standard output: the report goes to standard error.
    let ran = run(&["write", &list, "-o", "-", "-e", "4"]);
    assert_eq!(ran.status, 0);
    assert!(ran.err.contains(report), "{}", ran.err);
}

/// The edition with the fewest bytes, and what each would take.
#[test]
fn the_best() {
    let folder = Folder::new("tables_best");
    let best = |name: &str, ids: &[u32], values: &[i64], written: Edition| {
        let list = folder.put(&format!("{name}.txt"), lines(ids, values));
        let file = folder.path(name);
        let sizes = [
            Edition::Plain,
            Edition::Lucene,
            Edition::Runs,
            Edition::Table,
        ]
        .map(|edition| {
            signalfern::write_to_vec(ids, values, edition, 9)
                .unwrap()
                .len()
        });
        let mut expected: Vec<String> = (1..)
            .zip(sizes)
            .map(|(number, bytes)| format!("edition {number}: {bytes} bytes"))
            .collect();
        if sizes[3] == sizes[0] {
            expected[3] = "edition 4: no table makes it shorter".to_string();
        }
        let least = sizes.iter().min().unwrap();
        let number = written.number();
        let out = run(&["write", &list, "-o", &file, "--best"])
            .expect(0, &[])
            .out;
        let told: Vec<&str> = out.lines().collect();
        assert_eq!(told[..4], expected);
        let report = format!(" pairs in {least} bytes of edition {number}, SHA-256 ");
        assert!(told.len() == 5 && told[4].contains(&report), "{out}");
        let column = signalfern::write_to_vec(ids, values, written, 9).unwrap();
        assert_eq!(folder.bytes(name), column);
        assert_eq!(column.len(), *least);
    };
    // Three and two bits: edition 1; two bits: editions 1 and 2 are as short, and the first is taken.
    best("seven", &[0, 2, 7], &[0, 7, 3], Edition::Plain);
    best("three", &[0, 2, 7], &[150, 140, 135], Edition::Plain);
    // A huge value in the second run alone.
    let ids: Vec<u32> = (0..20_000).collect();
    let mut values: Vec<i64> = (0..20_000).map(|i| i % 300).collect();
    values[19_000] = 1 << 50;
    best("runs", &ids, &values, Edition::Runs);
    let (ids, values) = scores();
    best("table", &ids, &values, Edition::Table);
    // From standard input and to standard output, where all lines go to standard error.
    let ran = run_with(&["write", "-b", "-o", "-"], lines(&ids, &values).as_bytes());
    assert_eq!(ran.status, 0);
    let told = "edition 4: 74 bytes\nstandard output: 10 pairs in 74 bytes of edition 4, SHA-256 ";
    assert!(ran.err.contains(told), "{}", ran.err);
    // Nothing that no writer takes.
    let list = folder.put("twice", "4 1\n4 2\n");
    let file = folder.path("none");
    run(&["write", &list, "-o", &file, "--best"]).expect(1, &["line 2: refusal 3, ORDER"]);
}

/// All but the digest is what edition 1 gives.
#[test]
fn the_same_answers() {
    let folder = Folder::new("tables_same");
    let (ids, values) = scores();
    let plain = signalfern::write_to_vec(&ids, &values, Edition::Plain, 9).unwrap();
    let (plain, table) = (folder.put("plain", plain), folder.put("table", column()));
    let list = folder.put("ids", "14\n5\n7\n");
    for words in [
        &["read"][..],
        &["read", "--from", "5", "--limit", "3"],
        &["look-up", "0", "6", "7", "14"],
        &["look-up", "--ids", &list],
        &["next", "5", "--count", "9"],
    ] {
        let asked = |column: &str| {
            let words = [&words[..1], &[column], &words[1..]].concat();
            run(&words).expect(0, &[]).out
        };
        assert_eq!(asked(&plain), asked(&table), "{words:?}");
    }
    for (below, above) in [(&plain, &table), (&table, &plain)] {
        let ran = run(&["look-up", below, "-c", above, "6"]).expect(0, &[]);
        let told = "6 -9223372036854775808 by correction ordinal 3 words machine 0 correction 0\n";
        assert_eq!(ran.out, told);
    }
    // There is no directory to search by: all pairs are read.
    let found = run(&["find", &table, "0", "1"]).expect(0, &[]);
    assert_eq!(found.out, "0 1 ordinal 0\n");
}

/// The bits of the code, and the bytes of the entry.
#[test]
fn the_bytes_that_hold_a_value() {
    let folder = Folder::new("tables_audit");
    let table = folder.put("table", column());
    let empty = folder.column("empty", &[], &[]);
    // Codes 3 2 3 0, 3 2 3 1, 2 3: the section starts at 39, and the codes at 71.
    let told = format!(
        "id 14: value -7, ordinal 7, by the machine column {table}\n  \
         value section: 35 bytes, from byte 39 (0x27) on\n  \
         stored number 7: 1, in 2 bits from bit 270 of the section on; entry 1 of the table is -7\n  \
         byte 72 (0x48): ED  111011[01]\n  \
         byte 47 (0x2F): F9 FF FF FF FF FF FF FF, entry 1, low byte first\n"
    );
    let ran = run(&["audit", &table, "14", "-c", &empty]).expect(0, &[]);
    assert_eq!(ran.of_ids(), told);
}

#[test]
fn what_is_wrong_with_one() {
    let folder = Folder::new("tables_wrong");
    let sound = Parts::of(&column());
    let check = |column: &Parts, words: &[&str]| {
        let file = folder.put("file", column.bytes());
        run(&["check", &file]).expect(1, words);
    };
    let with = |field: usize, number: u64| {
        let mut other = sound.clone();
        other.numbers[field] = number;
        other
    };
    for (field, number, words) in [
        (
            parts::STEP,
            1,
            "a table count of 1, and 2 to 256 are allowed: see divisor (g) at byte 7",
        ),
        (
            parts::STEP,
            257,
            "a table count of 257, and 2 to 256 are allowed: see divisor (g) at byte 7",
        ),
        (
            parts::STEP,
            5,
            "width 2, and codes of 5 entries take 3 bits: see width (w) at byte 5",
        ),
        (
            parts::WIDTH,
            3,
            "width 3, and codes of 4 entries take 2 bits: see width (w) at byte 5",
        ),
        (
            parts::LEAST,
            2,
            "smallest value 1, and in edition 4 it is 0: the table has all values",
        ),
        (
            parts::VALUE_BYTES,
            34,
            "a value section of 34 bytes, and a table of 4 entries and 10 pairs of 2 bits take 35",
        ),
    ] {
        check(&with(field, number), &["refusal 10, HEADER", words]);
    }
    // The table turned, a code past it, an entry without pairs, and one that saves nothing.
    let codes = sound.stored();
    let table = [i64::MIN, -7, 0, 1];
    let turned = with_codes(sound.clone(), &[i64::MIN, 0, -7, 1], &codes);
    let words = "first wrong place: byte 55, entry 2 of the table: -7, and it must be above the entry before it, 0";
    check(&turned, &["refusal 13, DAMAGED", words]);
    let three = with_codes(sound.clone(), &table[1..], &codes);
    let words = "byte 63, value 0 (from 0): its code is 3, and the table has 3 entries";
    check(&three, &["refusal 13, DAMAGED", words]);
    let unused: Vec<u64> = codes.iter().map(|&code| code.max(1)).collect();
    let unused = with_codes(sound.clone(), &table, &unused);
    let words = "byte 39, entry 0 of the table: -9223372036854775808, and no pair has this value";
    check(&unused, &["refusal 13, DAMAGED", words]);
    let near = with_codes(sound.clone(), &[-8, -7, 0, 1], &codes);
    let words = "byte 0, edition in the header: 4, and the table saves nothing: the column has 74 bytes, and in edition 1 it has";
    check(&near, &["refusal 13, DAMAGED", words]);
    // Shown as far as it goes.
    let file = folder.put("file", three.bytes());
    let words = [
        "REFUSED (13, DAMAGED)",
        "Table of distinct values (3, as far as they make sense)",
        "\n  5 pairs with a code past the table\n",
    ];
    run(&["show", &file]).expect_all(1, &words);
    // Cut off within the table.
    let file = folder.put("file", &sound.bytes()[..39 + 20]);
    let words = ["refusal 11, LENGTH", "Table of distinct values (2, as far"];
    run(&["show", &file]).expect_all(1, &words);
    run(&[
        "write",
        &folder.put("again", column()),
        "-o",
        &folder.path("new"),
    ])
    .expect(1, &["this is a column already"]);
}
