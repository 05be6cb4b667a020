//! next: the listed ids from an id on, and never one from a file that the check refuses.

use crate::common::parts::Parts;
use crate::common::tool::{run, run_with, Folder};

#[test]
fn the_first_from_an_id_on() {
    let folder = Folder::new("next");
    let column = folder.column("column", &[5, 9, 70_000], &[150, -140, 135]);
    for (id, line) in [
        ("0", "5 150 ordinal 0\n"),
        ("5", "5 150 ordinal 0\n"),
        ("6", "9 -140 ordinal 1\n"),
        ("10", "70000 135 ordinal 2\n"),
        ("70001", "none at or above 70001\n"),
        ("2147352575", "none at or above 2147352575\n"),
    ] {
        assert_eq!(run(&["next", &column, id]).expect(0, &[]).out, line);
    }
    let ran = run_with(&["next", "-", "10"], &folder.bytes("column")).expect(0, &[]);
    assert_eq!(ran.out, "70000 135 ordinal 2\n");
}

#[test]
fn several() {
    let folder = Folder::new("next_several");
    let last = 2_147_352_575;
    let column = folder.column("column", &[5, 9, last], &[150, -140, 135]);
    let lines = "9 -140 ordinal 1\n2147352575 135 ordinal 2\nnone at or above 2147352576\n";
    for (count, told) in [("1", 1), ("2", 2), ("3", 3), ("18446744073709551615", 3)] {
        let ran = run(&["next", &column, "6", "--count", count]).expect(0, &[]);
        let expected: Vec<&str> = lines.lines().take(told).collect();
        assert_eq!(ran.out.lines().collect::<Vec<_>>(), expected);
    }
    let ran = run(&["next", "--count=3", "--json", &column, "9"]).expect(0, &[]);
    let expected = "{\"target\":9,\"answer\":\"found\",\"id\":9,\"value\":\"-140\",\"ordinal\":\"1\"}\n\
        {\"target\":10,\"answer\":\"found\",\"id\":2147352575,\"value\":\"135\",\"ordinal\":\"2\"}\n\
        {\"target\":2147352576,\"answer\":\"none\"}\n";
    assert_eq!(ran.out, expected);
    let empty = folder.column("empty", &[], &[]);
    let ran = run(&["next", &empty, "7", "--count", "9"]).expect(0, &[]);
    assert_eq!(ran.out, "none at or above 7\n");
    let ran = run(&["next", &empty, "7", "--json"]).expect(0, &[]);
    assert_eq!(ran.out, "{\"target\":7,\"answer\":\"none\"}\n");
}

#[test]
fn some_of_two_thousand_million() {
    let folder = Folder::new("next_all_ids");
    folder.put("column", Parts::full_blocks(32_766).bytes());
    let script =
        "ulimit -v 40000; signalfern next column 65535 --count 2147352576 | tail -n +2 | head -n 2";
    let ran = folder.shell(script).expect(0, &[]);
    assert_eq!(ran.out, "65536 42 ordinal 65536\n65537 42 ordinal 65537\n");
}

#[test]
fn what_is_refused() {
    let folder = Folder::new("next_refused");
    let column = folder.column("column", &[0, 2, 7], &[150, 140, 135]);
    for id in ["2147352576", "4294967296", "99999999999999999999"] {
        let words = format!("column: id {id}: refusal 14, ID: the id asked for is above");
        run(&["next", &column, id]).expect(1, &[&words]);
    }
    // The places are 9, 2 and 7: by its steps alone the call would give 9 the score of 0.
    let mut bytes = folder.bytes("column");
    bytes[14] = 9;
    let next = signalfern::next(&mut signalfern::Cursor::new(), &bytes, 3).unwrap();
    assert_eq!(next.map(|it| (it.id, it.value)), Some((9, 150)));
    let damaged = folder.put("damaged", &bytes);
    run(&["next", &damaged, "3"]).expect(1, &["refusal 13, DAMAGED", "signalfern check"]);
    let short = folder.put("short", &bytes[..20]);
    run(&["next", &short, "3", "--json"]).expect(1, &["refusal 11, LENGTH"]);
    run(&["next", "none", "3"]).expect(2, &["cannot read none"]);
}
