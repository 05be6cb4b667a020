//! What the tool tells of a header that broke: the byte, the header number it belongs to, the bytes
//! around it, and what to do. The texts are worked out by hand.

use crate::common::tool::{run, run_with, Folder};
use crate::common::THREE_PAIRS;
use signalfern::Edition;

/// The header numbers of three pairs by name, and where each starts and ends.
const NUMBERS: [(&str, usize, usize); 9] = [
    ("edition, header number 1 of 9", 0, 1),
    ("pairs (n), header number 2 of 9", 1, 2),
    ("rank power (p), header number 3 of 9", 2, 3),
    ("id section (L), header number 4 of 9", 3, 4),
    ("jump entries (J), header number 5 of 9", 4, 5),
    ("width (w), header number 6 of 9", 5, 6),
    ("smallest value, header number 7 of 9", 6, 8),
    ("divisor (g), header number 8 of 9", 8, 9),
    ("value section (V), header number 9 of 9", 9, 10),
];

/// The column with other bytes from one place up to another.
fn with(from: usize, to: usize, bytes: &[u8]) -> Vec<u8> {
    [&THREE_PAIRS[..from], bytes, &THREE_PAIRS[to..]].concat()
}

const SHORT: &str = "signalfern: file: refusal 7, SHORT: the bytes, ";
const CUT: &str =
    " in all, end within a number of the header, or of a set: they are empty or cut off\n";
const AGAIN: &str = "What to do: take the file again from where it was written, and compare the \
lengths by ls -l.\n";

const NUMBER: &str =
    "signalfern: file: refusal 8, NUMBER: a number of the header, or of a set, is not in its \
shortest form or needs more than 64 bits, by byte ";
const BAD: &str = " (from 0): the bytes are damaged, or neither column nor set\n";

/// What is told of a file in whole.
#[track_caller]
fn told(bytes: &[u8], text: &[&str]) {
    let folder = Folder::new(&format!("header_{}_{}", bytes.len(), text[1].trim()));
    folder.put("file", bytes);
    let ran = folder.shell("signalfern check file").expect(1, &[]);
    assert_eq!(ran.err, text.concat());
    // Beside the numbers that could be read, `show` tells the same.
    let shown = folder.shell("signalfern show file");
    assert_eq!((shown.status, shown.err), (1, text.concat()));
}

#[test]
fn a_padded_zero() {
    let lines =
        "  the bad byte is byte 2 (0x2), counted from 0, in pairs (n), header number 2 of 9, \
                 which starts at byte 1 (0x1)\n  \
                 it is 00 and ends a number of several bytes, which is then not in its shortest \
                 form\n  \
                 bytes 0 to 10 (0x0 to 0xA): 01 83 [00] 09 10 00 02 8E 02 05 01\n";
    let advice = "What to do: take the file again, in binary mode, from where it was written; \
                  there `od -A d -t x1 -j 2 -N 1 FILE` shows what byte 2 must be.\n";
    told(&with(1, 2, &[0x83, 0]), &[NUMBER, "2", BAD, lines, advice]);
}

#[test]
fn a_tenth_byte_of_two() {
    // V from byte 9 on: nine FF, and then 02 at byte 18. The id section follows, from byte 19 on.
    let lines = "  the bad byte is byte 18 (0x12), counted from 0, in value section (V), header \
                 number 9 of 9, which starts at byte 9 (0x9)\n  \
                 it is 02, and the tenth byte of a number can only be 01: a number is below 2^64\n  \
                 bytes 10 to 26 (0xA to 0x1A): FF FF FF FF FF FF FF FF [02] 00 00 02 00 00 00 02 \
                 00\n";
    let advice = "What to do: take the file again, in binary mode, from where it was written; \
                  there `od -A d -t x1 -j 18 -N 1 FILE` shows what byte 18 must be.\n";
    let number = [&[0xFF; 9][..], &[2]].concat();
    told(&with(9, 10, &number), &[NUMBER, "18", BAD, lines, advice]);
}

#[test]
fn cut_within_a_number() {
    let lines =
        "  the file has 7 bytes (0x7) and ends within smallest value, header number 7 of 9, \
                 which starts at byte 6 (0x6)\n  \
                 bytes 0 to 6 (0x0 to 0x6): 01 03 09 10 00 02 8E and no more\n";
    told(&THREE_PAIRS[..7], &[SHORT, "7", CUT, lines, AGAIN]);
    // n is 2^64 - 1 in ten bytes, and p has seven and no end.
    let lines =
        "  the file has 18 bytes (0x12) and ends within rank power (p), header number 3 of \
                 9, which starts at byte 11 (0xB)\n  \
                 bytes 2 to 17 (0x2 to 0x11): FF FF FF FF FF FF FF FF 01 80 80 80 80 80 80 80 and \
                 no more\n";
    let bytes = [&[1][..], &[0xFF; 9], &[1], &[0x80; 7]].concat();
    told(&bytes, &[SHORT, "18", CUT, lines, AGAIN]);
}

#[test]
fn cut_between_two_numbers() {
    let lines = "  the file has 5 bytes (0x5) and ends before width (w), header number 6 of 9\n  \
                 bytes 0 to 4 (0x0 to 0x4): 01 03 09 10 00 and no more\n";
    told(&THREE_PAIRS[..5], &[SHORT, "5", CUT, lines, AGAIN]);
    let lines = "  the file has 1 byte (0x1) and ends before pairs (n), header number 2 of 9\n  \
                 bytes 0 to 0 (0x0 to 0x0): 01 and no more\n";
    told(&THREE_PAIRS[..1], &[SHORT, "1", CUT, lines, AGAIN]);
    let lines = "  the file is empty: 0 bytes, and edition, header number 1 of 9, is missing\n";
    told(&[], &[SHORT, "0", CUT, lines, AGAIN]);
}

/// The bad byte and the header number of each file, by a file and by a pipe.
#[test]
fn each_header_number() {
    let folder = Folder::new("each_header_number");
    let groups = [0x80; 10];
    for (name, from, to) in NUMBERS {
        let number = |bytes: &[u8], place: usize| {
            let bad =
                format!("the bad byte is byte {place} (0x{place:X}), counted from 0, in {name}");
            (with(from, to, bytes), bad, format!("\"place\":{place},"))
        };
        let cut = [&THREE_PAIRS[..from], &groups[..1]].concat();
        let count = from + 1;
        let bytes = if count == 1 { "byte" } else { "bytes" };
        let ends = format!("the file has {count} {bytes} (0x{count:X}) and ends within {name}");
        let tenth = [&groups[..9], &[2]].concat();
        let eleven = [&groups[..], &[1]].concat();
        for (bytes, words, field) in [
            (cut, ends, format!("\"bytes\":{count},")),
            number(&[0x80, 0x00], from + 1),
            number(&tenth, from + 9),
            number(&eleven, from + 9),
        ] {
            let file = folder.put("file", &bytes);
            run(&["check", &file]).expect(1, &[&words, "What to do: "]);
            run_with(&["check", "-"], &bytes).expect(1, &[&words]);
            let title = name.split(", ").next().unwrap();
            let title = format!("\"header_number\":\"{title}\"");
            run(&["check", "--json", &file]).expect_all(1, &[&words, &field, &title]);
        }
    }
}

#[test]
fn by_json() {
    let folder = Folder::new("header_json");
    folder.put("bad", with(1, 2, &[0x83, 0]));
    folder.put("cut", &THREE_PAIRS[..7]);
    folder.put("other", &THREE_PAIRS[..20]);
    let ran = folder.shell("signalfern check --json bad cut other");
    let lines: Vec<&str> = ran.out.lines().collect();
    assert_eq!((ran.status, lines.len()), (1, 3), "{}", ran.err);
    let bad = r#"{"file":"bad","status":"refused","refusal":8,"name":"NUMBER","meaning":"a number of the header, or of a set, is not in its shortest form or needs more than 64 bits, by byte 2 (from 0): the bytes are damaged, or neither column nor set","place":2,"header_number":"pairs (n)","details":["the bad byte is byte 2 (0x2), counted from 0, in pairs (n), header number 2 of 9, which starts at byte 1 (0x1)","it is 00 and ends a number of several bytes, which is then not in its shortest form","bytes 0 to 10 (0x0 to 0xA): 01 83 [00] 09 10 00 02 8E 02 05 01"],"advice":"take the file again, in binary mode, from where it was written; there `od -A d -t x1 -j 2 -N 1 FILE` shows what byte 2 must be"}"#;
    assert_eq!(lines[0], bad);
    let cut = r#"{"file":"cut","status":"refused","refusal":7,"name":"SHORT","meaning":"the bytes, 7 in all, end within a number of the header, or of a set: they are empty or cut off","bytes":7,"header_number":"smallest value","details":["the file has 7 bytes (0x7) and ends within smallest value, header number 7 of 9, which starts at byte 6 (0x6)","bytes 0 to 6 (0x0 to 0x6): 01 03 09 10 00 02 8E and no more"],"advice":"take the file again from where it was written, and compare the lengths by ls -l"}"#;
    assert_eq!(lines[1], cut);
    // Where the header did not break, there is no such field.
    assert!(lines[2].contains("\"LENGTH\"") && !lines[2].contains("header_number"));
}

/// What brought the bad byte about is told after it, where it is known.
#[test]
fn a_cause_stands_after_the_place() {
    // -2^63 is FF nine times and 01. As text each FF becomes EF BF BD, and the tenth of them is EF.
    let column = signalfern::write_to_vec(&[5], &[i64::MIN], Edition::Plain, 9).unwrap();
    let text = String::from_utf8_lossy(&column).into_owned();
    let folder = Folder::new("header_cause");
    let file = folder.put("file", text.as_bytes());
    let words = [
        "the bad byte is byte 15 (0xF), counted from 0, in smallest value, header number 7 of 9",
        "it is EF, and the tenth byte of a number can only be 01",
        "[EF] BF BD EF",
        "bytes were replaced by U+FFFD",
        "What to do: transfer the file again in binary mode, not as text.",
    ];
    run(&["check", &file]).expect(1, &words);
}

/// Each command that reads a column names the byte.
#[test]
fn every_command_names_the_byte() {
    let folder = Folder::new("header_commands");
    let bad = folder.put("bad", with(1, 2, &[0x83, 0]));
    let cut = folder.put("cut", &THREE_PAIRS[..7]);
    for (file, words) in [
        (&bad, "refusal 8, NUMBER: a number of the header, or of a set, is not in its shortest form or needs more than 64 bits, by byte 2 (from 0)"),
        (&cut, "refusal 7, SHORT: the bytes, 7 in all, end within a number of the header, or of a set"),
    ] {
        let check = format!("Try `signalfern check {file}`");
        run(&["read", file]).expect(1, &[words, &check]);
        run(&["look-up", file, "2"]).expect(1, &[words, &check]);
        run(&["look-up", "--unchecked", file, "2"]).expect(1, &[words, &check]);
        run(&["show", file]).expect_all(1, &[words, "What to do: "]);
    }
}
