//! What the tool tells about a refused file: what is wrong, where, and what to do.

use std::sync::atomic::{AtomicUsize, Ordering};

use crate::common::parts::{self, Parts};
use crate::common::tool::{run, Folder};
use signalfern::Edition;

/// A column with many line feeds, and with returns before some of them: places 2573 are 0D 0A. There
/// is none in its header.
fn column() -> Vec<u8> {
    let ids: Vec<u32> = (0..40)
        .map(|block| block << 16 | 2573)
        .chain([40 << 16 | 10])
        .collect();
    let values: Vec<i64> = (0..41).map(|value| 3 * (value % 11)).collect();
    signalfern::write_to_vec(&ids, &values, Edition::Plain, 9).unwrap()
}

fn replaced(bytes: &[u8], from: &[u8], to: &[u8]) -> Vec<u8> {
    let mut out = Vec::new();
    let mut rest = bytes;
    while !rest.is_empty() {
        match rest.strip_prefix(from) {
            Some(after) => {
                out.extend(to);
                rest = after;
            }
            None => {
                out.push(rest[0]);
                rest = &rest[1..];
            }
        }
    }
    out
}

#[track_caller]
fn explained(bytes: &[u8], words: &[&str]) {
    // Tests run side by side, each in folders of its own.
    static FOLDERS: AtomicUsize = AtomicUsize::new(0);
    let number = FOLDERS.fetch_add(1, Ordering::Relaxed);
    let folder = Folder::new(&format!("explained_{number}"));
    let file = folder.put("file", bytes);
    let told = run(&["check", &file]).expect(1, words);
    let last = told.err.lines().last().unwrap();
    assert!(
        last.starts_with("What to do: ") && last.ends_with('.'),
        "{last}"
    );
    // By JSON the same is told.
    let json = run(&["check", "--json", &file]).expect_all(1, &words[1..]);
    assert!(
        json.err.is_empty() && json.out.starts_with("{\"file\":"),
        "{}",
        json.out
    );
}

#[test]
fn length_cut_off() {
    let column = column();
    let told = format!("the header tells of {} bytes (", column.len());
    for cut in [1, 2, 20, column.len() - 40] {
        let few = format!("{} are there: {cut} too few", column.len() - cut);
        let advice = format!("copy the file again: it must have {} bytes", column.len());
        let words = ["refusal 11, LENGTH", &told, &few, "it is cut off", &advice];
        explained(&column[..column.len() - cut], &words);
    }
}

#[test]
fn length_appended() {
    let column = column();
    let sound = format!("the first {} bytes are a sound column", column.len());
    for (more, what) in [
        (&b"\n"[..], "a line end was appended"),
        (b"\r\n", "a line end was appended"),
        (&[0; 100], "zero bytes were appended"),
        (b"more", "something was appended"),
    ] {
        let many = format!("{} too many", more.len());
        let cut = format!("head -c {} FILE > NEW", column.len());
        let words = ["refusal 11, LENGTH", &many, what, &sound, &cut];
        explained(&[&column[..], more].concat(), &words);
    }
}

#[test]
fn length_line_endings() {
    let column = column();
    // Every LF changed can be undone for certain.
    let longer = replaced(&column, b"\n", b"\r\n");
    assert_eq!(longer.len(), column.len() + 43);
    let sure = "line endings were changed (LF to CR LF): changed back, it is a sound column";
    explained(
        &longer,
        &["refusal 11, LENGTH", "43 too many", sure, "binary mode"],
    );
    // Where those after CR were left as they were, it cannot.
    let longer = replaced(&replaced(&column, b"\r\n", b"\n"), b"\n", b"\r\n");
    assert_eq!(longer.len(), column.len() + 3);
    let seems = "line endings were changed (LF to CR LF), it seems";
    explained(
        &longer,
        &["refusal 11, LENGTH", "3 too many", seems, "binary mode"],
    );
    // The divisor 10 is a line feed in the header.
    let tens =
        signalfern::write_to_vec(&[1, 2570, 65_546], &[0, 10, 20], Edition::Plain, 9).unwrap();
    let longer = replaced(&tens, b"\n", b"\r\n");
    explained(&longer, &["refusal 10, HEADER", sure, "binary mode"]);
    let shorter = replaced(&column, b"\r\n", b"\n");
    assert_eq!(shorter.len(), column.len() - 40);
    let seems = "line endings were changed, it seems: bytes are missing before its end";
    explained(
        &shorter,
        &["refusal 11, LENGTH", "40 too few", seems, "binary mode"],
    );
    let mut within = column.clone();
    within.remove(30);
    let lost = "1 byte went missing within it, before the end block";
    explained(&within, &["refusal 11, LENGTH", lost]);
}

/// Sent through something that takes all files for text, as a mail may.
#[test]
fn converted_as_text() {
    let replaced = "bytes were replaced by U+FFFD";
    let small = signalfern::write_to_vec(&[0, 2, 7], &[150, 140, 135], Edition::Plain, 9).unwrap();
    // The count of pairs has two bytes, C8 01.
    let ids: Vec<u32> = (0..200).collect();
    let values: Vec<i64> = (0..200).map(|value| value % 7).collect();
    let counted = signalfern::write_to_vec(&ids, &values, Edition::Plain, 9).unwrap();
    for (column, refusal) in [
        (column(), "refusal 11, LENGTH"),
        (small, "refusal 11, LENGTH"),
        (counted, "refusal 10, HEADER"),
    ] {
        let text = String::from_utf8_lossy(&column).into_owned();
        explained(text.as_bytes(), &[refusal, replaced, "binary mode"]);
    }
}

#[test]
fn header_rules() {
    let parts = Parts::of(&column());
    for (index, number, words) in [
        (parts::COUNT, 2_147_352_577, "the header has 2147352577 pairs, and at most 2147352576 are allowed: see pairs (n) at byte 1"),
        (parts::POWER, 6, "rank power 6, and 0 or 7 to 15 are allowed: see rank power (p) at byte 2"),
        (parts::JUMPS, 40_000, "40000 jump entries, and at most 32767 are allowed"),
        (parts::WIDTH, 65, "width 65, and at most 64 bits are allowed"),
        (parts::STEP, 0, "divisor 0, and it must be at least 1"),
        (parts::ID_BYTES, 9, "an id section of 9 bytes, and 42 jump entries need at least 342"),
        (parts::VALUE_BYTES, 9, "a value section of 9 bytes, and 41 pairs of 4 bits take 21"),
    ] {
        let mut wrong = parts.clone();
        wrong.numbers[index] = number;
        explained(&wrong.bytes(), &["refusal 10, HEADER", words, "take the file again"]);
    }
}

/// The bits flipped at a byte of the id section, and what is told of it. (The places themselves are
/// tested beside the diagnosis.)
const FLIPPED: [(usize, u8, &str); 6] = [
    (6, 3, "places of block 1 (sparse): 2 and 2"),
    (
        14,
        1,
        "head of block 2 (dense): 4999 ids, and the jump entries tell 5000",
    ),
    (
        23,
        1,
        "rank 3 of block 2 (dense): 1537, and 1536 ones stand before",
    ),
    (
        352,
        1,
        "bitmap of block 2 (dense), words 8 to 15, places 512 to 1023",
    ),
    (8465, 1, "end block: FF 7E 00 00 FF FF"),
    (
        8486,
        1,
        "jump entry 2: 5 ids before, start 12; the blocks give 4 and 12",
    ),
];

#[test]
fn damage_is_placed() {
    let ids: Vec<u32> = (65_536..65_540).chain(131_072..136_072).collect();
    let values: Vec<i64> = ids.iter().map(|id| i64::from(10 * (id % 50))).collect();
    let column = signalfern::write_to_vec(&ids, &values, Edition::Plain, 9).unwrap();
    let folder = Folder::new("shown_damaged");
    for (at, bits, words) in FLIPPED {
        let mut parts = Parts::of(&column);
        parts.ids[at] ^= bits;
        let words = ["refusal 13, DAMAGED", "first wrong place: byte ", words];
        explained(&parts.bytes(), &words);
        let shown = run(&["show", &folder.put("file", parts.bytes())]).expect_all(1, &words);
        assert!(shown
            .out
            .contains("file: REFUSED (13, DAMAGED); what can be made out:"));
        assert!(shown.out.contains("smallest value"), "{}", shown.out);
        assert!(shown.err.contains("What to do: "));
    }
}

/// Stored 3, 1, 0 with divisor 5 in byte 26, and what else may stand there.
#[test]
fn stored_numbers_are_explained() {
    let column = signalfern::write_to_vec(&[0, 2, 7], &[150, 140, 135], Edition::Plain, 9).unwrap();
    for (byte, words) in [
        // 2, 0, 2; then 3, 0, 3.
        (
            0x88,
            "byte 26, stored numbers: 2 divides them all, so the writer would give divisor 10 and \
             not 5",
        ),
        (
            0xCC,
            "byte 26, stored numbers: 3 divides them all, so the writer would give divisor 15 and \
             not 5",
        ),
        // 3, 2, 1: none is 0.
        (
            0xE4,
            "byte 6, smallest value in the header: 135, and no value is so small (the least stored \
             is 1)",
        ),
    ] {
        let mut bytes = column.clone();
        bytes[26] = byte;
        explained(&bytes, &["refusal 13, DAMAGED", words, "take the file again"]);
    }
}

#[test]
fn show_shows_what_it_can() {
    let folder = Folder::new("show_damaged");
    let column = column();
    let cut = folder.put("cut", &column[..100]);
    let shown = run(&["show", &cut]).expect_all(1, &["REFUSED (11, LENGTH)"]);
    assert!(
        shown.out.contains("as far as they make sense"),
        "{}",
        shown.out
    );
    assert!(shown.out.contains("not made out"), "{}", shown.out);
    let header = folder.put("header", &column[..3]);
    let shown = run(&["show", &header]).expect_all(1, &["REFUSED (7, SHORT)"]);
    assert!(shown.out.contains("pairs (n)          41"), "{}", shown.out);
    assert!(!shown.out.contains("id section"), "{}", shown.out);
}
