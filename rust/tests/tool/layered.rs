//! look-up with a correction on top, and audit: which column spoke, and the bytes that it spoke by.

use crate::common::tool::{run, run_with, Folder};

/// A machine column of three pairs, and a correction of one of them and of another id.
fn layers(name: &str) -> (Folder, String, String) {
    let folder = Folder::new(name);
    let machine = folder.column("machine", &[0, 2, 7], &[150, 140, 135]);
    let correction = folder.column("correction", &[2, 4], &[-1, 254]);
    (folder, machine, correction)
}

#[test]
fn which_column_spoke() {
    let (folder, machine, correction) = layers("layered");
    let words = ["look-up", &machine, "--correction", &correction];
    let ran = run(&[&words[..], &["0", "2", "4", "5"]].concat()).expect(0, &[]);
    let answers = "0 150 by machine ordinal 0 words machine 0 correction 0\n\
                   2 -1 by correction ordinal 0 words machine 0 correction 0\n\
                   4 254 by correction ordinal 1 words machine 0 correction 0\n\
                   5 absent words machine 0 correction 0\n";
    assert_eq!(ran.out, answers);
    // By pages, in any order: without the words.
    let list = folder.put("ids", "4\n70000\n0\n2\n4\n");
    let ran = run(&[&words[..], &["--ids", &list]].concat()).expect(0, &[]);
    let by_pages = "4 254 by correction ordinal 1\n70000 absent\n0 150 by machine ordinal 0\n\
                    2 -1 by correction ordinal 0\n4 254 by correction ordinal 1\n";
    assert_eq!(ran.out, by_pages);
    let ran = run(&[&words[..], &["--ids", &list, "--json"]].concat()).expect(0, &[]);
    let first = "{\"id\":4,\"answer\":\"found\",\"value\":\"254\",\"ordinal\":\"1\",\"by\":\"correction\"}\n\
                 {\"id\":70000,\"answer\":\"absent\"}\n";
    assert!(ran.out.starts_with(first), "{}", ran.out);
    let from_pipe = ["look-up", &machine, "-c", "-", "2"];
    let ran = run_with(&from_pipe, &folder.bytes("correction")).expect(0, &[]);
    assert!(answers.contains(&ran.out) && ran.out.starts_with("2 -1"));
    // The other way round.
    let ran = run(&["look-up", &correction, "-c", &machine, "2", "4"]).expect(0, &[]);
    let answers = "2 140 by correction ordinal 1 words machine 0 correction 0\n\
                   4 254 by machine ordinal 1 words machine 0 correction 0\n";
    assert_eq!(ran.out, answers);
}

/// A list of which one id is refused: those after it get their answers.
#[test]
fn a_list_with_a_refused_id() {
    let (folder, machine, correction) = layers("layered_list");
    let list = folder.put("ids", "2\n2147352576\n7\n");
    let ran = run(&["look-up", &machine, "-c", &correction, "--ids", &list]);
    assert_eq!(
        ran.out,
        "2 -1 by correction ordinal 0\n7 135 by machine ordinal 2\n"
    );
    ran.expect_all(1, &["line 2", "refusal 14, ID"]);
    let mut bytes = folder.bytes("machine");
    bytes[12] = 3; // Four places where there is room for three.
    let broken = folder.put("broken", &bytes);
    let list = folder.put("ids", "7\n2\n4\n");
    let words = ["look-up", &broken, "-c", &correction, "--unchecked"];
    let ran = run(&[&words[..], &["--ids", &list]].concat());
    assert_eq!(
        ran.out,
        "2 -1 by correction ordinal 0\n4 254 by correction ordinal 1\n"
    );
    ran.expect_all(1, &["broken: id 7: refusal 15, BROKEN"]);
    let words = ["look-up", &machine, "-c", &broken, "--unchecked"];
    let ran = run(&[&words[..], &["--ids", &list]].concat());
    assert_eq!(ran.out, "");
    ran.expect(1, &["broken: id 2: refusal 15, BROKEN"]);
}

#[test]
fn the_pairs_of_both() {
    let (folder, machine, correction) = layers("layered_read");
    let words = ["read", &machine, "--correction", &correction];
    let read = |more: &[&str]| run(&[&words[..], more].concat()).expect(0, &[]).out;
    assert_eq!(read(&[]), "0 150\n2 -1\n4 254\n7 135\n");
    assert_eq!(
        read(&["--by"]),
        "0 150 machine\n2 -1 correction\n4 254 correction\n7 135 machine\n"
    );
    assert_eq!(read(&["--from", "1", "--to", "6"]), "2 -1\n4 254\n");
    assert_eq!(
        read(&["--from", "3", "--limit", "1", "--by"]),
        "4 254 correction\n"
    );
    assert_eq!(
        read(&["--by", "--format", "csv", "--from", "4"]),
        "id,value,by\n4,254,correction\n7,135,machine\n"
    );
    assert_eq!(
        read(&[
            "--by",
            "--format",
            "tsv",
            "--columns",
            "word,score",
            "--limit",
            "1"
        ]),
        "word\tscore\tby\n0\t150\tmachine\n"
    );
    assert_eq!(
        read(&["--by", "--json", "--from", "7"]),
        "{\"id\":7,\"value\":\"135\",\"by\":\"machine\"}\n"
    );
    assert_eq!(
        read(&["--json", "--from", "7"]),
        "{\"id\":7,\"value\":\"135\"}\n"
    );
    // To a file; and the correction from a pipe.
    let file = folder.path("pairs");
    assert_eq!(read(&["-o", &file]), "");
    assert_eq!(folder.bytes("pairs"), b"0 150\n2 -1\n4 254\n7 135\n");
    let from_pipe = ["read", &machine, "-c", "-", "--limit", "2"];
    let ran = run_with(&from_pipe, &folder.bytes("correction")).expect(0, &[]);
    assert_eq!(ran.out, "0 150\n2 -1\n");
    // The other way round.
    let ran = run(&["read", &correction, "-c", &machine]).expect(0, &[]);
    assert_eq!(ran.out, "0 150\n2 140\n4 254\n7 135\n");
}

/// More than a call of the library reads at a time, beside what is put together here.
#[test]
fn many_pairs_of_both() {
    let folder = Folder::new("layered_many");
    let below: Vec<u32> = (0..30_000).map(|i| i * 3).collect();
    let above: Vec<u32> = (0..700).map(|i| i * 101).collect();
    let machine = folder.column("machine", &below, &vec![7; below.len()]);
    let correction = folder.column("correction", &above, &vec![-8; above.len()]);
    let mut both: std::collections::BTreeMap<u32, &str> =
        below.iter().map(|&id| (id, "7")).collect();
    both.extend(above.iter().map(|&id| (id, "-8")));
    let expected: String = both.iter().map(|(id, it)| format!("{id} {it}\n")).collect();
    let ran = run(&["read", &machine, "-c", &correction]).expect(0, &[]);
    assert!(ran.out == expected);
    let ids: String = (0..3000).map(|i| format!("{}\n", i * 37 % 3001)).collect();
    let list = folder.put("ids", &ids);
    let ran = run(&["look-up", &machine, "-c", &correction, "--ids", &list]).expect(0, &[]);
    let by_two = |it: &&str| {
        if **it == *"7" {
            "machine"
        } else {
            "correction"
        }
    };
    let expected: String = (0..3000)
        .map(|i| {
            let id = i * 37 % 3001;
            match both.get(&id) {
                None => format!("{id} absent\n"),
                Some(it) => {
                    let (by, list) = (by_two(it), if **it == *"7" { &below } else { &above });
                    let ordinal = list.partition_point(|&other| other < id);
                    format!("{id} {it} by {by} ordinal {ordinal}\n")
                }
            }
        })
        .collect();
    assert!(ran.out == expected);
}

#[test]
fn no_pairs_where_one_of_them_is_refused() {
    let (folder, machine, correction) = layers("layered_read_refused");
    let mut bytes = folder.bytes("machine");
    bytes[12] = 3;
    let broken = folder.put("broken", &bytes);
    for (below, above) in [(&machine, &broken), (&broken, &correction)] {
        let ran = run(&["read", below, "-c", above]).expect(1, &["broken: refusal 13, DAMAGED"]);
        assert_eq!(ran.out, "");
    }
    run(&["read", &machine, "--by"]).expect(2, &["--by is for a --correction"]);
    let digest = "0".repeat(64);
    let words = ["read", &machine, "--correction-digest", &digest];
    run(&words).expect(2, &["--correction-digest is for a --correction"]);
    let words = [
        "read",
        &machine,
        "-c",
        &correction,
        "--correction-digest",
        &digest,
    ];
    let ran = run(&words).expect(1, &["correction"]);
    assert_eq!(ran.out, "");
    run(&["read", "-", "-c", "-"]).expect(2, &["only one file can come from standard input"]);
    // Neither of the two is written over.
    for file in [&machine, &correction] {
        run(&["read", &machine, "-c", &correction, "-o", file]).expect(2, &["it is the input"]);
    }
}

#[test]
fn the_words_of_each() {
    let folder = Folder::new("layered_words");
    let ids: Vec<u32> = (0..5000).collect();
    let machine = folder.column("machine", &ids, &vec![7; 5000]);
    let correction = folder.column("correction", &ids[..4500], &vec![8; 4500]);
    let words = [
        "look-up",
        &machine,
        "-c",
        &correction,
        "600",
        "4600",
        "6000",
    ];
    let ran = run(&words).expect(0, &[]);
    // Place 600 is in the second word of its stride, and 4600 in the eighth; a clear bit costs one.
    let answers = "600 8 by correction ordinal 600 words machine 0 correction 2\n\
                   4600 7 by machine ordinal 4600 words machine 8 correction 1\n\
                   6000 absent words machine 1 correction 1\n";
    assert_eq!(ran.out, answers);
}

#[test]
fn no_score_where_one_of_them_is_refused() {
    let (folder, machine, correction) = layers("layered_refused");
    let mut bytes = folder.bytes("machine");
    bytes[12] = 3; // Four places where there is room for three.
    let broken = folder.put("broken", &bytes);
    for (below, above) in [(&machine, &broken), (&broken, &correction)] {
        let words = ["broken: refusal 13, DAMAGED", "signalfern check"];
        run(&["look-up", below, "-c", above, "2"]).expect(1, &words);
        run(&["audit", below, "-c", above, "2"]).expect(1, &words);
    }
    // Unchecked, the column that refuses is named, and the correction is asked first.
    let unchecked = ["look-up", "--unchecked", "-c"];
    let ran = run(&[&unchecked[..], &[&broken, &machine, "2"]].concat());
    ran.expect(1, &["broken: id 2: refusal 15, BROKEN"]);
    let ran = run(&[&unchecked[..], &[&correction, &broken, "2", "0"]].concat());
    assert_eq!(
        ran.out,
        "2 -1 by correction ordinal 0 words machine 0 correction 0\n"
    );
    let warned = ran.err.matches("is not checked").count();
    assert!(
        warned == 2 && ran.err.contains("broken: id 0: refusal 15, BROKEN"),
        "{}",
        ran.err
    );
    for command in ["look-up", "audit"] {
        let words = ["machine: id 2147352576: refusal 14, ID"];
        run(&[command, &machine, "-c", &correction, "2147352576"]).expect(1, &words);
    }
}

#[test]
fn the_bytes_that_hold_a_value() {
    let (folder, machine, correction) = layers("audit");
    // Stored are 3, 1 and 0 in the last byte of 27: D0.
    let ran = run(&["audit", &machine, "7", "--correction", &correction]).expect(0, &[]);
    let told = format!(
        "id 7: value 135, ordinal 2, by the machine column {machine}\n  \
         value section: 1 byte, from byte 26 (0x1A) on\n  \
         stored number 2: 0, in 2 bits from bit 4 of the section on; 135 + 5 * 0 = 135\n  \
         byte 26 (0x1A): D0  1101[00]00\n"
    );
    assert_eq!(ran.of_ids(), told);
    // Of -1 and 254 stored are 0 and 1, with divisor 255, in the last byte.
    let ran = run(&["audit", &machine, "4", "-c", &correction]).expect(0, &[]);
    let len = folder.bytes("correction").len();
    let words = [
        "value 254, ordinal 1, by the correction column",
        "stored number 1: 1, in 1 bit from bit 1 of the section on; -1 + 255 * 1 = 254",
        &format!("byte {} (0x{:X}): 40  0[1]000000", len - 1, len - 1),
    ];
    ran.expect(0, &words);
    let ran = run(&["audit", &machine, "5", "-c", &correction]).expect(0, &[]);
    assert_eq!(ran.of_ids(), "id 5: in neither column\n");
    let equal = folder.column("equal", &[5, 6], &[9, 9]);
    let ran = run(&["audit", &machine, "6", "-c", &equal]).expect(0, &[]);
    let told = format!("id 6: value 9, ordinal 1, by the correction column {equal}\n");
    assert_eq!(
        ran.of_ids(),
        told + "  no bits are stored: every value is 9\n"
    );
}

#[test]
fn a_value_over_several_bytes() {
    let folder = Folder::new("audit_wide");
    // 13 bits each: number 1 has the bits 13 to 25, 4681 of them 1001001001001.
    let machine = folder.column("machine", &[1, 2, 3, 4], &[0, 4681, 8191, 1]);
    let empty = folder.column("empty", &[], &[]);
    let ran = run(&["audit", &machine, "2", "-c", &empty]).expect(0, &[]);
    let bytes = folder.bytes("machine");
    let start = bytes.len() - 7;
    let mut told = vec![
        format!("id 2: value 4681, ordinal 1, by the machine column {machine}"),
        format!("  value section: 7 bytes, from byte {start} (0x{start:X}) on"),
        "  stored number 1: 4681, in 13 bits from bit 13 of the section on; 0 + 1 * 4681 = 4681"
            .to_string(),
    ];
    // 0000000000000 1001001001001 1111111111111 ..., eight at a time.
    for (at, byte, bits) in [
        (1, "04", "00000[100]"),
        (2, "92", "[10010010]"),
        (3, "7F", "[01]111111"),
    ] {
        let place = start + at;
        assert_eq!(format!("{:02X}", bytes[place]), byte);
        told.push(format!("  byte {place} (0x{place:X}): {byte}  {bits}"));
    }
    assert_eq!(ran.of_ids().lines().collect::<Vec<_>>(), told);
}

/// Without a correction, for many ids, and with both scores where the correction overrules.
#[test]
fn many_ids_and_both_scores() {
    let (folder, machine, correction) = layers("audit_many");
    let list = folder.put("ids", "7\n5\n");
    let ran = run(&["audit", &machine, "0", "--ids", &list]).expect(0, &[]);
    let section = "  value section: 1 byte, from byte 26 (0x1A) on\n  stored number ";
    let told = format!(
        "id 0: value 150, ordinal 0, by the column {machine}\n{section}\
         0: 3, in 2 bits from bit 0 of the section on; 135 + 5 * 3 = 150\n  byte 26 (0x1A): D0  [11]010000\n\
         id 7: value 135, ordinal 2, by the column {machine}\n{section}\
         2: 0, in 2 bits from bit 4 of the section on; 135 + 5 * 0 = 135\n  byte 26 (0x1A): D0  1101[00]00\n\
         id 5: not in the column\n"
    );
    assert_eq!(ran.of_ids(), told);
    let digest = folder.shell("sha256sum < machine").out[..64].to_string();
    let other = folder.shell("sha256sum < correction").out[..64].to_string();
    let version = concat!("signalfern ", env!("CARGO_PKG_VERSION"), ", library ");
    let words = [
        version,
        &digest,
        &other,
        "no digest was compared",
        "machine column ",
        "correction column ",
    ];
    let ran = run(&["audit", &machine, "2", "4", "-c", &correction]).expect(0, &words);
    let len = folder.bytes("correction").len();
    let overruled = format!(
        "  byte {} (0x{:X}): 40  [0]1000000\n  it overrules value 140, ordinal 1, of the machine column {machine}\n    \
         value section: 1 byte, from byte 26 (0x1A) on\n    \
         stored number 1: 1, in 2 bits from bit 2 of the section on; 135 + 5 * 1 = 140\n    \
         byte 26 (0x1A): D0  11[01]0000\nid 4: value 254",
        len - 1,
        len - 1
    );
    assert!(ran.out.contains(&overruled), "{}", ran.out);
    let ran = run(&["audit", "--json", &machine, "2", "5", "-c", &correction]).expect(0, &[]);
    let lines: Vec<&str> = ran.out.lines().collect();
    assert_eq!(lines.len(), 3);
    assert!(
        lines[0].contains(&format!("\"sha256\":\"{digest}\",\"compared\":[]")),
        "{}",
        lines[0]
    );
    let told =
        "{\"id\":2,\"answer\":\"found\",\"by\":\"correction\",\"value\":\"-1\",\"ordinal\":\"0\",";
    assert!(lines[1].starts_with(told), "{}", lines[1]);
    let told = "\"overruled\":{\"value\":\"140\",\"ordinal\":\"1\",\"section\":{\"start\":26,\"bytes\":1},\
                \"stored\":\"1\",\"bits\":{\"first\":2,\"count\":2},\"sum\":\"135 + 5 * 1 = 140\",\
                \"at\":[{\"place\":26,\"byte\":208,\"bits\":\"11[01]0000\"}]}}";
    assert!(lines[1].ends_with(told), "{}", lines[1]);
    assert_eq!(lines[2], "{\"id\":5,\"answer\":\"absent\"}");
    let ran = run(&["audit", &machine, "7", "2147352576"]);
    ran.expect(1, &["machine: id 2147352576: refusal 14, ID"]);
}
