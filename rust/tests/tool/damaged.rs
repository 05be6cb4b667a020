//! Every command over damaged files: no panic, no status but 0, 1 and 2, and no answer from a refused file.
//!
//! `SIGNALFERN_DAMAGED` tells how many files; 3000 take some minutes, so that the usual run tries fewer.

use crate::common::tool::{run, Folder};
use crate::common::{few_ids, ids_of, values_of_width, Random, EDITIONS};

const FEW: usize = 40;

fn count() -> usize {
    let told = std::env::var("SIGNALFERN_DAMAGED").ok();
    told.and_then(|word| word.parse().ok()).unwrap_or(FEW)
}

/// Bytes with something wrong: a bit, a byte, a cut, something put in or appended.
fn spoil(random: &mut Random, bytes: &[u8]) -> Vec<u8> {
    let mut bytes = bytes.to_vec();
    for _ in 0..=random.below(3) {
        let at = random.below(bytes.len().max(1));
        match random.below(6) {
            0 | 1 if !bytes.is_empty() => bytes[at] ^= 1 << random.below(8),
            2 if !bytes.is_empty() => bytes[at] = random.pick(&[0, 1, 0x7F, 0x80, 0xFF]),
            3 => bytes.truncate(at),
            4 => bytes.insert(at, random.pick(&[0, 0x0D, 0xFF])),
            _ => bytes.extend_from_slice(&[0; 9][..random.below(9)]),
        }
    }
    bytes
}

#[test]
fn every_command_over_damaged_files() {
    let folder = Folder::new("damaged_files");
    let mut random = Random::new(42);
    let good = folder.column("good", &[0, 2, 7], &[150, 140, 135]);
    let list = folder.put("ids", "0\n2\n70000\n");
    let (page, file) = (folder.path("page"), folder.path("file"));
    let (mut refused, mut sound) = (0, 0);
    for round in 0..count() {
        let is_set = round % 5 == 4;
        let ids = match random.one_in(4) {
            true => ids_of(&mut random, &[(0, 5000), (2, 65_536)]),
            false => few_ids(&mut random, 60),
        };
        let values = values_of_width(&mut random, ids.len(), 7);
        let column = signalfern::write_to_vec(&ids, &values, EDITIONS[round % 4], 9).unwrap();
        let bytes = match is_set {
            true => signalfern::set_write_to_vec(&ids).unwrap(),
            false => column,
        };
        let bytes = spoil(&mut random, &bytes);
        folder.put("file", &bytes);
        let (is_column, is_sound_set) = (
            signalfern::check(&bytes).is_ok(),
            signalfern::set_check(&bytes).is_ok(),
        );
        refused += usize::from(!is_column && !is_sound_set);
        sound += usize::from(is_column || is_sound_set);
        for (words, is_sound, tells) in [
            (&["check", &file][..], is_column, false),
            (&["check", "--json", &file], is_column, true),
            (&["read", &file], is_column, false),
            (&["read", "--json", "--from", "3", &file], is_column, false),
            (&["look-up", &file, "0", "2", "70000"], is_column, false),
            (&["look-up", &file, "--ids", &list], is_column, false),
            (&["look-up", &good, "-c", &file, "2"], is_column, false),
            (&["next", &file, "1", "--count", "3"], is_column, false),
            (&["find", &file, "-100", "100"], is_column, false),
            (&["find", &file, "-100", "100", "--all"], is_column, false),
            (&["stats", &file], is_column, false),
            (&["audit", &file, "0", "2"], is_column, false),
            (&["audit", &good, "2", "-c", &file], is_column, false),
            (&["show", &file], is_column, true),
            (&["show", "--json", &file], is_column, true),
            (&["show", &file, "--html", &page], is_column, false),
            (&["set", "check", &file], is_sound_set, false),
            (&["set", "read", &file], is_sound_set, false),
            (&["set", "find", &file, "2", "7"], is_sound_set, false),
            (&["set", "find", &file, "--ids", &list], is_sound_set, false),
        ] {
            let ran = run(words);
            let told = format!("{words:?} {round}: {}{}", ran.out, ran.err);
            assert!(!told.contains("panicked"), "{told}");
            let expected = i32::from(!is_sound);
            assert_eq!(ran.status, expected, "{told}");
            if !is_sound {
                assert!(
                    tells || ran.out.is_empty(),
                    "an answer from a refused file: {told}"
                );
                assert!(!ran.out.contains("\"status\":\"sound\""), "{told}");
            }
        }
        let ran = run(&["diff", &good, &file]);
        assert!(
            matches!((ran.status, is_column), (2, false) | (0 | 1, true)),
            "{}{}",
            ran.out,
            ran.err
        );
        assert!(is_column || ran.out.is_empty());
        for words in [
            &["judge", &file, "-j", "3", "-p", "9"][..],
            &["judge", &file, "-j", "0", "-p", "0", "--lucene8", "--json"],
            &["look-up", "--unchecked", &file, "2"],
            &["write", &file, "--dry-run"],
            &["write", &file, "-o", &folder.path("new")],
            &["write", &file, "--dry-run", "--format", "csv"],
            &["write", &file, "--dry-run", "--format", "json"],
            &["set", "write", &file, "-o", &folder.path("new set")],
            &["look-up", &good, "--ids", &file],
        ] {
            let ran = run(words);
            assert!((0..=2).contains(&ran.status), "{words:?} {}", ran.status);
            assert!(!ran.err.contains("panicked"), "{words:?} {}", ran.err);
        }
        let _ = std::fs::remove_file(&page);
    }
    assert!(
        refused > count() / 4 && sound > 0,
        "{refused} refused, {sound} sound"
    );
}
