//! judge: bare id sections by the tool, and what `check` tells of a column's own.

use crate::common::tool::{run, run_with, Folder};

/// Block 0 with the places 2 and 7, block 1 with 5; the end block at 14, and three entries at 20.
const SECTION: [u8; 44] = [
    0, 0, 1, 0, 2, 0, 7, 0, 1, 0, 0, 0, 5, 0, 0xFF, 0x7F, 0, 0, 0xFF, 0xFF, 0, 0, 0, 0, 0, 0, 0, 0,
    2, 0, 0, 0, 8, 0, 0, 0, 3, 0, 0, 0, 14, 0, 0, 0,
];

/// The same high byte first.
const HIGH_FIRST: [u8; 44] = [
    0, 0, 0, 1, 0, 2, 0, 7, 0, 1, 0, 0, 0, 5, 0x7F, 0xFF, 0, 0, 0xFF, 0xFF, 0, 0, 0, 0, 0, 0, 0, 0,
    0, 0, 0, 2, 0, 0, 0, 8, 0, 0, 0, 3, 0, 0, 0, 14,
];

#[test]
fn accepted_in_both_orders() {
    let folder = Folder::new("judge");
    let (nine, eight) = (folder.put("nine", SECTION), folder.put("eight", HIGH_FIRST));
    let told = "accepted, 3 ids in 44 bytes\n";
    let ran = run(&["judge", &nine, "--jumps", "3", "--power", "9"]).expect(0, &[]);
    assert_eq!(ran.out, format!("{nine}: {told}"));
    let ran = run(&["judge", &eight, "-j3", "-p0", "--lucene8"]).expect(0, &[]);
    assert_eq!(ran.out, format!("{eight}: {told}"));
    let ran = run_with(&["judge", "-", "-j", "3", "-p", "15"], &SECTION).expect(0, &[]);
    assert_eq!(ran.out, format!("standard input: {told}"));
    // Each in the other order.
    let hint =
        "What to do: judge it with --lucene8: high byte first, as Lucene 8 writes, it is accepted.";
    run(&["judge", &eight, "-j3", "-p9"]).expect(1, &["faulty, reason", hint]);
    let hint = "What to do: judge it without --lucene8: low byte first, as Lucene 9 writes, it is accepted.";
    run(&["judge", &nine, "-j3", "-p9", "--lucene8"]).expect(1, &["faulty, reason", hint]);
    let mut shifted = SECTION;
    shifted[8] = 0;
    let file = folder.put("shifted", shifted);
    run(&["judge", &file, "-j3", "-p9"])
        .expect(1, &["reason 2, BLOCK_ORDER, at byte 8 (0x8), block 0"]);
}

#[test]
fn what_is_faulty() {
    let folder = Folder::new("judge_faulty");
    let put = |at: usize, byte: u8| {
        let mut bytes = SECTION;
        bytes[at] = byte;
        folder.put("section", bytes)
    };
    for (at, byte, words) in [
        (
            6,
            2,
            "reason 3, PLACE_ORDER, at byte 0 (0x0), block 0: the places",
        ),
        (
            9,
            0x80,
            "reason 2, BLOCK_ORDER, at byte 8 (0x8), block 32769: the block's",
        ),
        (
            18,
            0,
            "reason 6, END_BLOCK, at byte 14 (0xE), block 32767: the end block",
        ),
        (
            28,
            3,
            "reason 7, JUMPS, at byte 28 (0x1C): the jump entries",
        ),
    ] {
        run(&["judge", &put(at, byte), "-j3", "-p9"]).expect(1, &[words]);
    }
    let cut = folder.put("cut", &SECTION[..13]);
    let words = ["reason 1, CUT_OFF, at byte 8 (0x8), block 1: the bytes end"];
    run(&["judge", &cut, "-j3", "-p9"]).expect(1, &words);
    let more = folder.put("more", [&SECTION[..], &[0]].concat());
    let words = ["reason 8, LEFT_OVER, at byte 44 (0x2C): bytes follow"];
    run(&["judge", &more, "-j3", "-p9"]).expect(1, &words);
    let section = folder.put("section", SECTION);
    let words = ["reason 7, JUMPS, at byte 20 (0x14)"];
    run(&["judge", &section, "-j2", "-p9"]).expect(1, &words);
    for (jumps, power, words) in [
        ("32768", "9", "is no count of jump entries: 0 to 32767"),
        ("3", "6", "is no rank power: 0, or 7 to 15"),
        (
            "3",
            "18446744073709551615",
            "is no rank power: 0, or 7 to 15",
        ),
    ] {
        run(&["judge", &section, "-j", jumps, "-p", power]).expect(2, &[words, "--help"]);
    }
}

#[test]
fn wrong_command_lines() {
    run(&["judge", "a", "-p9"]).expect(2, &["`--jumps` is not given"]);
    run(&["judge", "a", "-j3"]).expect(2, &["`--power` is not given"]);
    run(&["judge", "-j3", "-p9"]).expect(2, &["no section is named"]);
    run(&["judge", "a", "b", "-j3", "-p9"]).expect(2, &["one word too many"]);
    run(&["judge", "a", "-j-1", "-p9"]).expect(2, &["is no count of jump entries"]);
    run(&["judge", "none", "-j3", "-p9"]).expect(2, &["cannot read none"]);
}

/// A damaged column whose id section is at fault: `check` names block, reason and place.
#[test]
fn what_check_tells_of_an_id_section() {
    let folder = Folder::new("judge_check");
    let file = folder.column("column", &[2, 7, 65_541], &[4, 4, 4]);
    let mut bytes = folder.bytes("column");
    let start = bytes.len() - SECTION.len();
    assert_eq!(bytes[start..], SECTION);
    bytes[start + 6] = 2;
    folder.put("column", &bytes);
    let place = format!("the id section is faulty, PLACE_ORDER, from byte {start} (0x");
    let words = [
        "refusal 13, DAMAGED",
        &place,
        "block 0 on: the places of the block do not ascend",
    ];
    run(&["check", &file]).expect(1, &words);
    run(&["check", "--json", &file]).expect_all(1, &words[1..]);
    // With sound ids nothing is said of them.
    let file = folder.column("values", &[2, 7, 9], &[0, 1, 3]);
    let mut bytes = folder.bytes("values");
    *bytes.last_mut().unwrap() |= 1;
    folder.put("values", &bytes);
    let ran = run(&["check", &file]).expect(1, &["refusal 13, DAMAGED", "spare bits"]);
    assert!(!ran.err.contains("id section"), "{}", ran.err);
}
