//! Text in and out as people have it: tables, JSON lines, bad lines named at once, sorting and duplicates.

use std::fs;

use crate::common::tool::{has_program, run, Folder};

/// Writes a text and reads it back as plain lines.
fn there_and_back(text: &[u8], options: &[&str]) -> String {
    let folder = Folder::new("texts_back");
    let (list, column) = (folder.put("list", text), folder.path("column"));
    let words = [&["write", &list, "-o", &column][..], options].concat();
    run(&words).expect(0, &[" pairs in "]);
    run(&["read", &column]).expect(0, &[]).out
}

#[test]
fn tables_and_json_lines() {
    let expected = "0 150\n2 -140\n7 9223372036854775807\n";
    for (text, options) in [
        ("id,value\n0,150\n2,-140\n7,9223372036854775807\n", &["--format", "csv"][..]),
        ("ID;Score\r\n0;150\r\n2;-140\r\n7;9223372036854775807\r\n", &["--format=csv"]),
        ("id\tscore\n0\t150\n2\t-140\n7\t9223372036854775807", &["--format", "tsv"]),
        (
            "word,\"the id\",x,\"say \"\"score\"\"\"\n\"a,b\",0,1,150\nc,\"2\",2,\"-140\"\n\nd,7,3,9223372036854775807\n",
            &["--format", "csv", "--columns", "the id,say \"score\""],
        ),
        (
            "{\"id\":0,\"value\":150}\n\n{\"value\":\"-140\",\"more\":[1,{\"id\":5}],\"id\":\"2\"}\n{\"id\":7,\"value\":\"9223372036854775807\"}\n",
            &["--format", "json"],
        ),
        (
            "{\"key\":0,\"n\":150}\n{\"key\":2,\"n\":-140}\n{\"key\":7,\"n\":9223372036854775807}\n",
            &["--format", "json", "--columns", "key,n"],
        ),
        ("\u{feff}0 150\n2 -140\n7 9223372036854775807\n", &[]),
        ("\u{feff}id,score\n0,150\n2,-140\n7,9223372036854775807\n", &["--format", "csv"]),
        ("7 9223372036854775807\n0 150\n2 -140\n", &["--sort"]),
        ("7 9223372036854775807\n2 1\n0 150\n2 -140\n", &["--sort", "--duplicates", "last"]),
        ("0 150\n2 -140\n2 9\n7 9223372036854775807\n", &["--duplicates", "first"]),
    ] {
        assert_eq!(there_and_back(text.as_bytes(), options), expected, "{text}");
    }
}

#[test]
fn read_as_tables() {
    let folder = Folder::new("texts_read");
    let column = folder.column("column", &[0, 7], &[i64::MIN, 135]);
    for (options, text) in [
        (
            &["--format", "csv"][..],
            "id,value\n0,-9223372036854775808\n7,135\n",
        ),
        (
            &["--format", "tsv", "--columns", "id,score"],
            "id\tscore\n0\t-9223372036854775808\n7\t135\n",
        ),
        (
            &["--format", "csv", "--columns", "id,a \"b\""],
            "id,\"a \"\"b\"\"\"\n0,-9223372036854775808\n7,135\n",
        ),
        (
            &["--json"],
            "{\"id\":0,\"value\":\"-9223372036854775808\"}\n{\"id\":7,\"value\":\"135\"}\n",
        ),
        (
            &["--format", "json", "--columns", "k,v"],
            "{\"k\":0,\"v\":\"-9223372036854775808\"}\n{\"k\":7,\"v\":\"135\"}\n",
        ),
        (&["--format", "csv", "--from", "1"], "id,value\n7,135\n"),
    ] {
        let ran = run(&[&["read", &column][..], options].concat()).expect(0, &[]);
        assert_eq!(ran.out, text);
        if !options.contains(&"--from") {
            // Each form is taken back.
            let list = folder.put("list", text);
            let mut words = vec!["write", &list, "-o", "-", "--no-sidecar"];
            words.extend(
                options
                    .iter()
                    .map(|it| if *it == "--json" { "--format=json" } else { it }),
            );
            let ran = run(&words);
            assert_eq!(ran.status, 0, "{}", ran.err);
            assert!(ran.err.contains(&format!(
                "2 pairs in {} bytes",
                folder.bytes("column").len()
            )));
        }
    }
}

#[test]
fn what_no_table_is() {
    let folder = Folder::new("texts_wrong");
    for (text, options, words) in [
        ("0,150\n", &["--format", "csv"][..], "line 1: refusal 101, TEXT: the header line `0, 150` names no column `id`"),
        ("id,x\n0,1\n", &["--format", "csv"], "names no column `value`: tell its columns by --columns ID,VALUE"),
        ("id,value\n0,1\n2\n", &["--format", "csv"], "line 3: refusal 101, TEXT: it has 1 fields, and field 2 is wanted"),
        ("id,value\n0,\"1\n", &["--format", "csv"], "line 2: refusal 101, TEXT: a quote is not closed on its line"),
        ("id,value\n0,1.5\n", &["--format", "csv"], "line 2: refusal 101, TEXT: `1.5` is no value"),
        ("{\"id\":0}\n", &["--format", "json"], "line 1: refusal 101, TEXT: the object has no member `value`"),
        ("{\"id\":0,\"id\":1,\"value\":2}\n", &["--format", "json"], "the member `id` stands twice"),
        ("{\"id\":0,\"value\":1e3}\n", &["--format", "json"], "`1e3` is no value"),
        ("{\"id\":0,\"value\":1\n", &["--format", "json"], "no JSON object"),
        ("id,value\n7,1\n\n5,1\n", &["--format", "csv"], "line 4: refusal 3, ORDER: id 5 is not above id 7 of line 2; sort the lines by id: --sort"),
        ("7 1\n5 1\n\n7 2\n", &["--sort"], "line 4: refusal 3, ORDER: id 7 is not above id 7 of line 1; an id may stand once"),
    ] {
        let list = folder.put("list", text);
        let new = folder.path("new");
        let typed = [&["write", &list, "-o", &new][..], options].concat();
        run(&typed).expect(1, &[words]);
    }
    assert_eq!(folder.names(), ["list"]);
    for (options, words) in [
        (
            &["--format", "xml"][..],
            "`xml` is no form: lines, csv, tsv or json",
        ),
        (
            &["--format", "csv", "--columns", "a"],
            "--columns takes two names: ID,VALUE",
        ),
        (
            &["--columns", "a,b"],
            "--columns is for --format csv, tsv or json",
        ),
        (
            &["--duplicates", "any"],
            "`any` is neither first, last nor refuse",
        ),
        (&["--limit", "3"], "--limit is for --dry-run"),
    ] {
        run(&[&["write", "a", "-o", "b"][..], options].concat()).expect(2, &[words]);
    }
}

#[test]
fn all_bad_lines_at_once() {
    let folder = Folder::new("texts_dry");
    let list = folder.put("list", "0 1\nx 1\n5 1\n4 1\n9\n9 9\n2147352576 1\n");
    let ran = run(&["write", &list, "--dry-run"]);
    assert_eq!((ran.status, ran.out.as_str()), (1, ""));
    let told: Vec<&str> = ran.err.lines().collect();
    assert_eq!(told.len(), 4, "{}", ran.err);
    for (line, words) in told.iter().zip([
        "list: line 2: refusal 101, TEXT: `x` is no id",
        "list: line 4: refusal 3, ORDER: id 4 is not above id 5 of line 3",
        "list: line 5: refusal 101, TEXT: `9` has no value",
        "list: line 7: refusal 4, RANGE: id 2147352576 is above",
    ]) {
        assert!(line.contains(words), "{line}");
    }
    let ran = run(&["write", &list, "-n", "--limit", "2"]);
    assert_eq!(ran.err.lines().count(), 3, "{}", ran.err);
    assert!(ran
        .err
        .contains("there are more bad lines; --limit names more of them"));
    let ran = run(&["write", &list, "--dry-run", "--json"]);
    let first = ran.out.lines().next().unwrap();
    assert!(first.ends_with("\"line\":2,\"refusal\":101,\"name\":\"TEXT\",\"meaning\":\"`x` is no id: a whole number from 0 to 2147352575\"}"), "{first}");
    assert_eq!((ran.out.lines().count(), ran.status), (4, 1));
    // A good list is told by what it would take, and nothing is written.
    let list = folder.put("list", "7 135\n0 150\n2 140\n2 1\n");
    let ran = run(&["write", &list, "--dry-run", "--sort", "--duplicates=first"]);
    let words = [
        "edition 2: 27 bytes",
        "list: 3 pairs, 1 duplicate left out, would be written in 27 bytes of edition 1",
    ];
    ran.expect(0, &words);
    assert_eq!(folder.names(), ["list"]);
    let written = run(&[
        "write",
        &list,
        "-o",
        &folder.path("new"),
        "--sort",
        "--duplicates=first",
    ]);
    written.expect(0, &["3 pairs in 27 bytes, 1 duplicate left out, SHA-256"]);
}

/// Lists sorted here are as sort sorts them, and each duplicate is the one told.
#[test]
fn sorted_as_by_sort() {
    let folder = Folder::new("texts_sort");
    let lines: String = (0..20_000_u64)
        .map(|i| format!("{} {i}\n", i * 7919 % 5003))
        .collect();
    folder.put("list", &lines);
    for (which, sort) in [
        ("first", "sort -n -s -u -k1,1 list"),
        ("last", "tac list | sort -n -s -u -k1,1"),
    ] {
        let script = format!(
            "signalfern write list -o column --sort --duplicates {which} --force && signalfern read column > is && \
             {sort} > should && cmp is should"
        );
        folder
            .shell(&script)
            .expect(0, &["5003 pairs in", "14997 duplicates left out"]);
    }
}

/// What other programs write is read, and they read what is written.
#[test]
fn beside_other_programs() {
    let folder = Folder::new("texts_others");
    folder.column("column", &[0, 7], &[i64::MIN, i64::MAX]);
    if has_program("jq") {
        let ran = folder.shell("signalfern read --json column | jq -r .value");
        ran.expect(0, &["-9223372036854775808\n9223372036854775807\n"]);
    }
    if has_program("python3") {
        let script =
            "import csv,sys\nfor row in csv.DictReader(sys.stdin): print(row['id'], row['value'])";
        fs::write(folder.path("script.py"), script).unwrap();
        let ran = folder.shell("signalfern read --format csv column | python3 script.py");
        ran.expect(0, &["0 -9223372036854775808\n7 9223372036854775807\n"]);
    }
}
