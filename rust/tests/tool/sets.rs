//! Sets as columns: places and advice for refused ones, digests, reading, many ids, JSON, and no more memory than
//! they need.

use std::time::{Duration, Instant};

use crate::common::tool::{run, run_with, Folder};

#[test]
fn what_is_wrong_and_what_to_do() {
    let folder = Folder::new("sets_wrong");
    let good = signalfern::set_write_to_vec(&[0, 2, 70_000]).unwrap();
    // 02, then block 0: 00 00 02, 0 and 2; then block 1: 01 00 01, place 4464.
    let put = |at: usize, byte: u8| {
        let mut bytes = good.clone();
        bytes[at] = byte;
        bytes
    };
    for (bytes, words) in [
        (put(8, 0), "byte 8 (0x8), the number of block 2 of 2: 0 after block 0"),
        (put(2, 3), "byte 2 (0x2), the kind of block 1 of 2: 3, and there are 0, 1 and 2"),
        (put(3, 0), "byte 3 (0x3), the list's length of block 1 of 2: 0, and of kind 0 it is 1 to 4096"),
        (put(6, 0), "byte 4 (0x4), the data of block 1 of 2: 0 and 0, neighbours in its list, do not ascend"),
        (put(0, 1), "byte 8 (0x8), after the last block: the set ends here, after 1 block, and 5 bytes follow"),
        (good[..11].to_vec(), "byte 11 (0xB), the data of block 2 of 2: 2 bytes, and 0 are left: it is cut off"),
        (vec![0xFF, 0xFF, 0x03], "the number of blocks: 65535, and there are at most 32766"),
    ] {
        let file = folder.put("set", bytes);
        let words = ["refusal 13, DAMAGED", "first wrong place: ", words, "What to do: take the file again"];
        run(&["set", "check", &file]).expect(1, &words);
        let ran = run(&["set", "find", &file, "2"]);
        ran.expect(1, &["refusal 13, DAMAGED", "Try `signalfern set check "]);
        run(&["set", "read", &file]).expect(1, &["refusal 13, DAMAGED"]);
    }
    let list = folder.put("list", "1\n2\n");
    let words = [
        "this is text; its first line is `1`",
        "signalfern set write FILE -o SET",
    ];
    run(&["set", "check", &list]).expect(1, &words);
    let column = folder.column("column", &[5], &[1]);
    run(&["set", "check", &column])
        .expect(1, &["this is a column", "use the commands for columns"]);
    // And a set that is taken for a column.
    let set = folder.put("a set", &good);
    let words = [
        "this is a set of 3 ids, and no column",
        "signalfern set check '",
        "a set'",
    ];
    run(&["check", &set]).expect(1, &words);
}

#[test]
fn read_as_it_was_written() {
    let folder = Folder::new("sets_read");
    // A list, a bitmap, missing ones, and all.
    let mut ids: Vec<u32> = vec![1, 5, 65_535];
    ids.extend((65_536..2 * 65_536).filter(|id| id % 3 == 0));
    ids.extend((2 * 65_536..3 * 65_536).filter(|id| id % 100 != 7));
    ids.extend(9 * 65_536..10 * 65_536);
    let set = folder.put("set", signalfern::set_write_to_vec(&ids).unwrap());
    let lines: String = ids.iter().map(|id| format!("{id}\n")).collect();
    assert!(run(&["set", "read", &set]).expect(0, &[]).out == lines);
    let again = folder.path("again");
    run(&["set", "read", &set, "-o", &again]).expect(0, &[]);
    assert!(folder.bytes("again") == lines.as_bytes());
    run(&["set", "write", &again, "-o", &folder.path("new")]).expect(0, &[]);
    assert_eq!(folder.bytes("new"), folder.bytes("set"));
    let few = folder.put("few", signalfern::set_write_to_vec(&[3, 4]).unwrap());
    let ran = run(&["set", "read", "--json", &few]).expect(0, &[]);
    assert_eq!(ran.out, "{\"id\":3}\n{\"id\":4}\n");
    let ran = run(&["set", "find", "--json", &few, "4", "5"]).expect(0, &[]);
    let told =
        "{\"id\":4,\"answer\":\"found\",\"ordinal\":\"1\"}\n{\"id\":5,\"answer\":\"absent\"}\n";
    assert_eq!(ran.out, told);
    let ran = run(&["set", "check", "--json", &few, &again]);
    assert!(
        ran.out
            .contains("\"status\":\"sound\",\"ids\":2,\"bytes\":8,\"sha256\":\""),
        "{}",
        ran.out
    );
    assert!(
        ran.out
            .contains("\"status\":\"refused\",\"refusal\":13,\"name\":\"DAMAGED\""),
        "{}",
        ran.out
    );
    let empty = folder.put("empty", [0]);
    run(&["set", "read", &empty]).expect(0, &[]);
}

/// Files that are much too large are refused by their length or their first bytes, in little memory.
#[test]
fn large_files_are_refused_early() {
    let folder = Folder::new("sets_large");
    folder
        .shell("truncate -s 20G large; printf '\\1' > some; truncate -s 20G some")
        .expect(0, &[]);
    let start = Instant::now();
    for (words, told) in [
        ("set check large", "refusal 13, DAMAGED"),
        (
            "set check some",
            "the file has 21474836480 bytes, and no set has more than 268615671",
        ),
        ("set read large", "refusal 13, DAMAGED"),
        ("set find large 7", "refusal 13, DAMAGED"),
        (
            "judge large --jumps 3 --power 9",
            "faulty, reason 2, BLOCK_ORDER, at byte 6",
        ),
        (
            "judge - --jumps 3 --power 9 < large",
            "faulty, reason 2, BLOCK_ORDER, at byte 6",
        ),
    ] {
        let ran = folder.shell(&format!("ulimit -v 30000; signalfern {words}"));
        ran.expect(1, &[told]);
    }
    assert!(start.elapsed() < Duration::from_secs(30));
    folder.shell("rm large some").expect(0, &[]);
}

/// A section judged in parts has the verdict of the whole.
#[test]
fn sections_judged_in_parts() {
    let folder = Folder::new("judged_parts");
    // Dense blocks of some 8 KB each, more than are read at first.
    let ids: Vec<u32> = (0..300_u32)
        .flat_map(|block| (0..5000).map(move |place| (block << 16) | (place * 13)))
        .collect();
    let column =
        signalfern::write_to_vec(&ids, &vec![0; ids.len()], signalfern::Edition::Plain, 9).unwrap();
    let opened = signalfern::Column::open(&column).unwrap();
    let (start, len, jumps) = (
        opened.start() as usize,
        opened.id_bytes() as usize,
        opened.jump_count(),
    );
    let section = &column[start..start + len];
    assert!(section.len() > 2 << 20);
    let judge = |bytes: &[u8]| {
        let file = folder.put("section", bytes);
        let jumps = jumps.to_string();
        let alone = run(&["judge", &file, "-j", &jumps, "-p9"]);
        let piped = run_with(&["judge", "-", "-j", &jumps, "-p9"], bytes);
        assert_eq!(alone.status, piped.status);
        format!("{}{}", alone.out, alone.err)
    };
    assert!(judge(section).contains("accepted, 1500000 ids"));
    for at in [
        100,
        1 << 20,
        (1 << 20) + 1,
        section.len() - 3000,
        section.len() - 1,
    ] {
        let mut bytes = section.to_vec();
        bytes[at] ^= 1;
        let whole = signalfern::Section {
            bytes: &bytes,
            jump_count: jumps,
            power: 9,
            order: signalfern::ByteOrder::LowFirst,
        };
        let Err(signalfern::Fault::At { reason, place }) = whole.judge() else {
            panic!("{at} is not at fault");
        };
        let told = judge(&bytes);
        assert!(
            told.contains(&format!("{}, at byte {place} ", reason.name())),
            "{at}: {told}"
        );
    }
    for len in [9000, 1 << 20, section.len() - 1] {
        assert!(judge(&section[..len]).contains("faulty, reason"));
    }
}
