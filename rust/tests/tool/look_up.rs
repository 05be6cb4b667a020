//! look-up: never a wrong score from a file that the check refuses.

use crate::common::tool::{run, run_with, Folder};
use signalfern::Edition;

/// Each bit of the id section flipped in turn: where the check refuses, so does the look-up.
#[test]
fn a_damaged_column_gives_no_score() {
    let folder = Folder::new("damaged_scores");
    let ids: Vec<u32> = (0..6).map(|id| 3 * id).chain([70_000, 70_004]).collect();
    let values: Vec<i64> = (0..8).map(|value| 100 + 7 * value).collect();
    let column = signalfern::write_to_vec(&ids, &values, Edition::Plain, 9).unwrap();
    let (mut refused, mut wrong) = (0, 0);
    for bit in 0..8 * column.len() {
        let mut bytes = column.clone();
        bytes[bit / 8] ^= 1 << (bit % 8);
        let Err(refusal) = signalfern::check(&bytes) else {
            continue;
        };
        refused += 1;
        let answers = ids.iter().map(|&id| signalfern::look_up(&bytes, id));
        let is_wrong = answers.zip(&values).any(|(answer, value)| {
            answer.is_ok_and(|answer| answer.value().is_some_and(|it| it != *value))
        });
        if !is_wrong {
            continue;
        }
        // Here the steps of the look-up alone would give a wrong score.
        wrong += 1;
        let file = folder.put("file", &bytes);
        let refusal = format!("refusal {}, {}", refusal.number(), refusal.name());
        for id in &ids {
            run(&["look-up", &file, &id.to_string()]).expect(1, &[&refusal, "signalfern check"]);
        }
    }
    assert!(
        refused > 100 && wrong > 5,
        "{refused} refused, {wrong} wrong"
    );
}

#[test]
fn unchecked_says_so() {
    let folder = Folder::new("unchecked");
    let mut bytes =
        signalfern::write_to_vec(&[0, 2, 7], &[150, 140, 135], Edition::Plain, 9).unwrap();
    let sound = folder.put("sound", &bytes);
    bytes[26] |= 1;
    let damaged = folder.put("damaged", &bytes);
    for file in [&sound, &damaged] {
        let ran = run(&["look-up", "--unchecked", file, "7"]);
        assert_eq!(
            (ran.status, ran.out.as_str()),
            (0, "7 135 ordinal 2 words 0 probes 2\n")
        );
        assert!(ran
            .err
            .contains("is not checked: if it is damaged, answers may be wrong"));
    }
    let short = folder.put("short", &bytes[..20]);
    run(&["look-up", "--unchecked", &short, "7"]).expect(1, &["refusal 11, LENGTH"]);
    bytes[12] = 3; // Four places where there is room for three.
    let broken = folder.put("broken", &bytes);
    let ran = run(&["look-up", "--unchecked", &broken, "2"]);
    ran.expect(1, &["id 2: refusal 15, BROKEN"]);
}

#[test]
fn what_it_cost() {
    let folder = Folder::new("cost");
    // Block 0 is a bitmap of 5000 ones, with ranks to every 512 places; block 1 lists three places.
    let mut ids: Vec<u32> = (0..5000).collect();
    ids.extend([65_536, 65_538, 65_543]);
    let column = folder.column("column", &ids, &vec![7; ids.len()]);
    // Place 600 is in the second word of its stride; a clear bit costs one word.
    let ran = run(&["look-up", &column, "600", "6000", "65538", "65539"]).expect(0, &[]);
    let answers = "600 7 ordinal 600 words 2 probes 0\n6000 absent words 1 probes 0\n\
                   65538 7 ordinal 5001 words 0 probes 1\n65539 absent words 0 probes 2\n";
    assert_eq!(ran.out, answers);
}

#[test]
fn ids_from_a_file_or_standard_input() {
    let folder = Folder::new("ids");
    let column = folder.column("column", &[0, 2, 7], &[150, 140, 135]);
    let list = folder.put("ids", "7\n2\n\n  # none\n 5\n0 # these\n");
    // Costs are told of the id on the command line alone, which is asked for by itself.
    let answers = "2 140 ordinal 1 words 0 probes 1\n\
                   7 135 ordinal 2\n2 140 ordinal 1\n5 absent\n0 150 ordinal 0\n";
    let ran = run(&["look-up", &column, "2", "--ids", &list]).expect(0, &[]);
    assert_eq!(ran.out, answers);
    let ran = run_with(&["look-up", &column, "2", "-i-"], &folder.bytes("ids")).expect(0, &[]);
    assert_eq!(ran.out, answers);
    let bytes = folder.bytes("column");
    let ran = run_with(&["look-up", "-", "--ids", &list], &bytes).expect(0, &[]);
    assert!(answers.ends_with(&ran.out));
    // An id above the limit is told with its line, and the others are answered, up to what is no id.
    let list = folder.put("ids", "7\n4294967296\n2\nx1\n0\n");
    let ran = run(&["look-up", &column, "--ids", &list]);
    assert_eq!(ran.status, 1);
    assert_eq!(ran.out, "7 135 ordinal 2\n2 140 ordinal 1\n");
    assert!(
        ran.err
            .contains("ids: line 4: refusal 101, TEXT: `x1` is no id"),
        "{}",
        ran.err
    );
    assert!(
        ran.err
            .contains("ids: line 2: id 4294967296: refusal 14, ID"),
        "{}",
        ran.err
    );
    run(&["look-up", &column, "--ids", "none"]).expect(2, &["cannot read none"]);
}

/// More ids than go into one call, in any order and with repeats: a line for each, in that order.
#[test]
fn many_ids() {
    let folder = Folder::new("many_ids");
    let listed: Vec<u32> = (0..70_000).filter(|id| id % 3 == 0).collect();
    let values: Vec<i64> = listed.iter().map(|&id| i64::from(id) * 10).collect();
    let column = folder.column("column", &listed, &values);
    for count in [1, 1000, 65_537] {
        let ids: Vec<u32> = (0..count)
            .map(|i| i % 9000 * 7919 % 70_000 / 5 * 5)
            .rev()
            .collect();
        let mut expected = String::new();
        for id in &ids {
            expected += &match id % 3 {
                0 => format!("{id} {} ordinal {}\n", id * 10, id / 3),
                _ => format!("{id} absent\n"),
            };
        }
        let lines = ids.iter().map(|id| format!("{id}\n"));
        let list = folder.put("ids", lines.collect::<String>());
        let ran = run(&["look-up", &column, "--ids", &list]).expect(0, &[]);
        assert!(ran.out == expected, "{count}");
    }
}

/// What is refused is told in the order of the lines too, and the ids around it are answered.
#[test]
fn refused_ids_in_their_order() {
    let folder = Folder::new("refused_ids");
    let mut bytes = signalfern::write_to_vec(&[0, 70_000], &[5, 6], Edition::Plain, 9).unwrap();
    // The entry of block 1 leads past the section: BROKEN, where the file is not checked.
    let at = bytes.len() - 1 - 2 * 8 + 4;
    bytes[at] = 0xFF;
    let column = folder.put("column", &bytes);
    let list = folder.put(
        "ids",
        "2147352576\n0\n70000\n4294967295\n0\n99999999999\nx\n0\n",
    );
    let ran = run(&["look-up", "--unchecked", &column, "--ids", &list]);
    assert_eq!(
        (ran.status, ran.out.as_str()),
        (1, "0 5 ordinal 0\n0 5 ordinal 0\n")
    );
    let told = [
        "is not checked",
        "ids: line 1: id 2147352576: refusal 14, ID",
        "column: id 70000: refusal 15, BROKEN",
        "ids: line 4: id 4294967295: refusal 14, ID",
        "ids: line 6: id 99999999999: refusal 14, ID",
        "ids: line 7: refusal 101, TEXT: `x` is no id",
    ];
    assert_eq!(ran.err.lines().count(), told.len(), "{}", ran.err);
    for (line, words) in ran.err.lines().zip(told) {
        assert!(line.contains(words), "{line}");
    }
    // A line that is too long ends it, after those before it.
    let long = [&b"0\n"[..], &vec![b'1'; 70_000]].concat();
    let ran = run_with(&["look-up", "--unchecked", &column, "-i-"], &long);
    assert_eq!((ran.status, ran.out.as_str()), (1, "0 5 ordinal 0\n"));
    assert!(ran.err.contains("line 2: refusal 101, TEXT"), "{}", ran.err);
}
