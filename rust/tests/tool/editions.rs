//! Columns of edition 2 by the tool: written, shown, checked, read, asked and audited.

use crate::common::parts::{self, Parts};
use crate::common::tool::{run, Folder};
use signalfern::Edition;

/// (0, 150), (2, 140), (7, 135), in a file of each edition.
fn both(folder: &Folder) -> [String; 2] {
    let list = folder.put("list", "0 150\n2 140\n7 135\n");
    ["1", "2"].map(|edition| {
        let column = folder.path(&format!("edition-{edition}"));
        let words = ["write", &list, "-o", &column, "--edition", edition];
        run(&words).expect(0, &["3 pairs in 27 bytes"]);
        column
    })
}

#[test]
fn written_and_shown() {
    let folder = Folder::new("editions");
    let [one, two] = both(&folder);
    let written = |edition| signalfern::write_to_vec(&[0, 2, 7], &[150, 140, 135], edition, 9);
    assert_eq!(folder.bytes("edition-1"), written(Edition::Plain).unwrap());
    assert_eq!(folder.bytes("edition-2"), written(Edition::Lucene).unwrap());
    // Without the option it is edition 1.
    let list = folder.path("list");
    let column = folder.path("column");
    run(&["write", &list, "-o", &column]).expect(0, &[]);
    assert_eq!(folder.bytes("column"), folder.bytes("edition-1"));
    run(&["write", &list, "-o", &column, "-e2"]).expect(0, &[]);
    assert_eq!(folder.bytes("column"), folder.bytes("edition-2"));

    let row = "edition              1  values in any width, high bit first\n";
    run(&["show", &one]).expect(0, &[row, "Blocks of 65536 ids (1)"]);
    let row = "edition              2  values as Lucene 9 packs them, low bit first\n";
    run(&["show", &two]).expect(0, &[row, "Blocks of 65536 ids (1)", "values "]);
}

/// All but the digest is the same.
#[test]
fn the_same_answers() {
    let folder = Folder::new("editions_same");
    let [one, two] = both(&folder);
    let list = folder.put("ids", "7\n5\n7\n");
    for words in [
        &["read"][..],
        &["read", "--from", "1", "--limit", "1"],
        &["look-up", "0", "2", "5"],
        &["look-up", "--ids", &list],
        &["next", "3"],
    ] {
        let asked = |column| {
            let words = [&words[..1], &[column], &words[1..]].concat();
            run(&words).expect(0, &[]).out
        };
        assert_eq!(asked(&one[..]), asked(&two[..]), "{words:?}");
    }
    run(&["check", &two]).expect(0, &["sound, 3 pairs in 27 bytes"]);
    // A correction of one edition on top of a machine column of the other.
    for (below, above) in [(&one, &two), (&two, &one)] {
        let ran = run(&["look-up", below, "-c", above, "7"]).expect(0, &[]);
        let told = "7 135 by correction ordinal 2 words machine 0 correction 0\n";
        assert_eq!(ran.out, told);
    }
}

/// The bits of a value, from the low end on.
#[test]
fn the_bytes_that_hold_a_value() {
    let folder = Folder::new("editions_audit");
    let [_, two] = both(&folder);
    let empty = folder.column("empty", &[], &[]);
    let ran = run(&["audit", &two, "2", "-c", &empty]).expect(0, &[]);
    let told = format!(
        "id 2: value 140, ordinal 1, by the machine column {two}\n  \
         value section: 1 byte, from byte 26 (0x1A) on\n  \
         stored number 1: 1, in 2 bits from bit 2 of the section on; 135 + 5 * 1 = 140\n  \
         byte 26 (0x1A): 07  0000[01]11\n"
    );
    assert_eq!(ran.of_ids(), told);
    // 12 bits each, over the borders of bytes: 0, 4095, 1111 (457 hex) are 00 F0 FF 57 04.
    let ids = [1, 2, 3];
    let wide = signalfern::write_to_vec(&ids, &[0, 4095, 1111], Edition::Lucene, 9).unwrap();
    let start = wide.len() - 5;
    assert_eq!(wide[start..], [0x00, 0xF0, 0xFF, 0x57, 0x04]);
    let wide = folder.put("wide", wide);
    let ran = run(&["audit", &wide, "2", "-c", &empty]).expect(0, &[]);
    let bytes = [(1, "F0  [1111]0000"), (2, "FF  [11111111]")];
    let told: Vec<String> = (bytes.iter())
        .map(|(at, bits)| format!("  byte {} (0x{:X}): {bits}", start + at, start + at))
        .collect();
    assert_eq!(ran.of_ids().lines().skip(3).collect::<Vec<_>>(), told);
    let ran = run(&["audit", &wide, "3", "-c", &empty]).expect(0, &[]);
    let last = start + 4;
    assert!(
        ran.out
            .ends_with(&format!("byte {last} (0x{last:X}): 04  0000[0100]\n")),
        "{}",
        ran.out
    );
}

#[test]
fn what_is_wrong_with_one() {
    let folder = Folder::new("editions_wrong");
    both(&folder);
    let sound = Parts::of(&folder.bytes("edition-2"));
    let check = |column: Parts, words: &[&str]| {
        let file = folder.put("file", column.bytes());
        run(&["check", &file]).expect(1, words);
    };
    let mut width = sound.clone();
    width.numbers[parts::WIDTH] = 3;
    let list = "0, 1, 2, 4, 8, 12, 16, 20, 24, 28, 32, 40, 48, 56, 64 alone";
    check(
        width,
        &[
            "refusal 10, HEADER",
            &format!("width 3, and edition 2 has {list}: see width (w) at byte 5"),
        ],
    );
    let mut spare = sound.clone();
    spare.values[0] |= 0x80;
    check(
        spare,
        &[
            "refusal 13, DAMAGED",
            "byte 26, spare bits after the last value: 87, and its 2 high bits",
        ],
    );
    let mut other = sound;
    other.numbers[parts::EDITION] = 5;
    check(
        other,
        &[
            "refusal 9, EDITION",
            "a column starts with 01, 02, 03 or 04",
            "the right file",
        ],
    );
    // A column of edition 2 where a list is wanted.
    let column = folder.path("edition-2");
    let new = folder.path("new");
    run(&["write", &column, "-o", &new]).expect(1, &["this is a column already"]);
}
