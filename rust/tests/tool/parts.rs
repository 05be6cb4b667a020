//! Parts of columns, many columns, and the progress of long work.

use std::time::{Duration, Instant};

use crate::common::parts::Parts;
use crate::common::tool::{has_program, has_programs, run, Folder};
use crate::common::{ids_of, values_of_width, Random, EDITIONS, POWERS};
use signalfern::Edition;

fn lines(pairs: &[(u32, i64)]) -> String {
    let lines = pairs.iter().map(|(id, value)| format!("{id} {value}\n"));
    lines.collect()
}

/// A part by its bounds beside the same part of the pairs.
fn try_range(random: &mut Random, column: &str, pairs: &[(u32, i64)]) {
    let ends = [random.below(700_000) as u32, random.below(700_000) as u32];
    let (from, to) = (ends[0].min(ends[1]), ends[0].max(ends[1]));
    let limit = random.pick(&[0, 1, 10, 5000, usize::MAX]);
    let [first, last, most] = [from.to_string(), to.to_string(), limit.to_string()];
    let words = [
        "read", column, "--from", &first, "--to", &last, "--limit", &most,
    ];
    let part = run(&words).expect(0, &[]).out;
    let wanted = pairs.iter().filter(|(id, _)| (from..=to).contains(id));
    let wanted: Vec<(u32, i64)> = wanted.take(limit).copied().collect();
    assert!(part == lines(&wanted), "{words:?}");
}

#[test]
fn ranges_are_parts_of_the_whole() {
    let folder = Folder::new("ranges");
    let mut random = Random::new(7);
    let many = [
        (0, 30),
        (1, 4095),
        (2, 4096),
        (5, 65_536),
        (6, 60_000),
        (9, 1),
    ];
    let lists = [
        &many[..],
        &many,
        &many,
        &many,
        &[(0, 5000)],
        &[(3, 65_536)],
        &[],
    ];
    for (round, blocks) in lists.into_iter().enumerate() {
        let ids = ids_of(&mut random, blocks);
        let values = values_of_width(&mut random, ids.len(), 11);
        let edition = EDITIONS[round % 4];
        let bytes = signalfern::write_to_vec(&ids, &values, edition, random.pick(&POWERS));
        let column = folder.put("column", bytes.unwrap());
        let pairs: Vec<(u32, i64)> = ids.into_iter().zip(values).collect();
        let whole = run(&["read", &column]).expect(0, &[]).out;
        assert!(whole == lines(&pairs), "read whole");
        // A limit that is not reached, and one that is just reached.
        for limit in [99_999_999, pairs.len()] {
            let limited = run(&["read", &column, "--limit", &limit.to_string()]);
            assert!(limited.expect(0, &[]).out == whole, "limit {limit}");
        }
        for _ in 0..8 {
            try_range(&mut random, &column, &pairs);
        }
    }
}

/// Every id that there is, with value 42, in some 393 KB.
fn column_of_all_ids() -> Vec<u8> {
    let mut ids = Vec::new();
    for number in 0..32_766_u16 {
        ids.extend(number.to_le_bytes());
        ids.extend([0xFF, 0xFF]);
    }
    ids.extend([0xFF, 0x7F, 0, 0, 0xFF, 0xFF]);
    for number in 0..=32_766_u32 {
        ids.extend((number << 16).to_le_bytes());
        ids.extend((4 * number).to_le_bytes());
    }
    let numbers = [
        1,
        signalfern::MAX_COUNT,
        9,
        ids.len() as u64,
        32_767,
        0,
        84,
        1,
        0,
    ];
    let values = Vec::new();
    let parts = Parts {
        numbers,
        ids,
        values,
    };
    parts.bytes()
}

#[test]
fn the_first_pairs_of_two_thousand_million() {
    let folder = Folder::new("all_ids");
    folder.put("column", column_of_all_ids());
    let start = Instant::now();
    let little = "ulimit -v 40000; signalfern";
    let first = folder
        .shell(&format!("{little} read column --limit 3"))
        .expect(0, &[]);
    assert_eq!(first.out, "0 42\n1 42\n2 42\n");
    let last = folder
        .shell(&format!("{little} read column --from 2147352574"))
        .expect(0, &[]);
    assert_eq!(last.out, "2147352574 42\n2147352575 42\n");
    // The whole is begun at once too, where its pairs do not fit in memory.
    let head = folder
        .shell(&format!("{little} read column | head -n 2"))
        .expect(0, &[]);
    assert_eq!(head.out, "0 42\n1 42\n");
    folder
        .shell(&format!("{little} check column"))
        .expect(0, &["sound, 2147352576 pairs"]);
    assert!(start.elapsed() < Duration::from_secs(60));
}

#[test]
fn many_files() {
    let folder = Folder::new("many_files");
    let mut bytes =
        signalfern::write_to_vec(&[0, 2, 7], &[150, 140, 135], Edition::Plain, 9).unwrap();
    folder.put("a", &bytes);
    folder.put("c", &bytes);
    bytes[26] |= 1;
    folder.put("b", &bytes);
    let ran = folder.shell("signalfern check a c").expect(0, &[]);
    assert_eq!(ran.out.lines().count(), 2);
    let ran = folder
        .shell("signalfern check a b c")
        .expect_all(1, &["b: refusal 13, DAMAGED"]);
    assert_eq!(ran.out.lines().count(), 2);
    assert_eq!(ran.err.lines().count(), 1, "{}", ran.err);
    // The worst status, wherever it stands.
    for files in ["none b a", "b none a", "a b none"] {
        let ran = folder.shell(&format!("signalfern check {files}"));
        ran.expect_all(2, &["cannot read none", "refusal 13", "a: sound"]);
    }
    folder.shell("signalfern check -q a c").expect(0, &[]);
    let quiet = folder.shell("signalfern check --quiet a b c");
    quiet.expect(1, &["b: refusal 13, DAMAGED"]);
    let piped = folder.shell("cat a | signalfern check c -");
    piped.expect(0, &["c: sound", "standard input: sound"]);
}

#[test]
fn json_of_each_file() {
    let folder = Folder::new("json");
    let mut bytes =
        signalfern::write_to_vec(&[0, 2, 7], &[150, 140, 135], Edition::Plain, 9).unwrap();
    folder.put("a", &bytes);
    bytes[26] |= 1;
    folder.put("b \"quoted\"\\", &bytes);
    let ran = folder.shell("signalfern check --json a b* none; echo $?");
    let lines: Vec<&str> = ran.out.lines().collect();
    assert_eq!((lines.len(), lines[3], ran.err.as_str()), (4, "2", ""));
    assert!(lines[0].starts_with(
        "{\"file\":\"a\",\"status\":\"sound\",\"pairs\":3,\"bytes\":27,\"sha256\":\""
    ));
    assert!(lines[1].starts_with(
        "{\"file\":\"b \\\"quoted\\\"\\\\\",\"status\":\"refused\",\"refusal\":13,\"name\":\"DAMAGED\","
    ));
    assert!(lines[1].contains("\"details\":[\"first wrong place: byte 26, spare bits"));
    assert!(lines[2].starts_with("{\"file\":\"none\",\"status\":\"unusable\",\"message\":\""));
    // Another reader takes it, where one is there.
    if has_program("python3") {
        let script = "signalfern check --json a b* none | python3 -c \
                      'import json,sys; print([json.loads(line)[\"status\"] for line in sys.stdin])'";
        folder
            .shell(script)
            .expect(0, &["['sound', 'refused', 'unusable']"]);
    }
}

/// A run on a terminal, with what came there.
fn on_terminal(folder: &Folder, before: &str, words: &str) -> String {
    on_terminal_called("xterm", folder, before, words)
}

fn on_terminal_called(term: &str, folder: &Folder, before: &str, words: &str) -> String {
    let script = format!(
        "rm -f pipe; mkfifo pipe; {before} &\n\
         TERM={term} script -qec \"$SIGNALFERN {words}\" /dev/null < /dev/null"
    );
    folder.shell(&script).expect(0, &[]).out
}

/// Whether a line of progress showed one of these numbers of bytes: which one depends on how soon the reader was woken.
fn showed(seen: &str, doing: &str, bytes: [u64; 2]) -> bool {
    bytes
        .iter()
        .any(|count| seen.contains(&format!("{doing}: {count} bytes")))
}

#[test]
fn progress_goes_to_a_terminal() {
    if !has_programs(&["script"]) {
        return;
    }
    let folder = Folder::new("progress");
    let bytes = signalfern::write_to_vec(&[0, 2, 7], &[150, 140, 135], Edition::Plain, 9).unwrap();
    folder.put("small", &bytes);
    let ids: Vec<u32> = (0..300_000).collect();
    folder.column("large", &ids, &vec![1; ids.len()]);
    // Work that takes longer than a second, by a pipe that is filled or emptied slowly.
    let slow_list = "{ echo 1 1; sleep 1.4; echo 2 2; sleep 0.2; echo 3 3; } > pipe";
    let seen = on_terminal(&folder, slow_list, "write pipe -o new");
    assert!(showed(&seen, "reading pipe", [8, 12]), "{seen}");
    assert!(seen.contains("new: 3 pairs"), "{seen}");
    let slow_reader = "{ sleep 1.5; cat; } < pipe > got";
    let seen = on_terminal(&folder, slow_reader, "read large -o pipe");
    assert!(
        seen.contains("printing: ") && seen.contains(" of 300000 pairs, "),
        "{seen}"
    );
    let slow_ids = "{ echo 2; sleep 1.4; echo 7; sleep 0.2; echo 7; } > pipe";
    let seen = on_terminal(&folder, slow_ids, "look-up small --ids pipe > got");
    assert!(showed(&seen, "looking up pipe", [4, 6]), "{seen}");
    let answers = "2 140 ordinal 1\n7 135 ordinal 2\n7 135 ordinal 2\n";
    assert_eq!(folder.bytes("got"), answers.as_bytes());
    // Not where the pairs themselves go to the terminal, and not into a file of messages.
    let seen = on_terminal(&folder, "true", "read small");
    assert!(!seen.contains("printing"), "{seen}");
    let seen = on_terminal(&folder, slow_ids, "look-up small --ids pipe");
    assert!(!seen.contains("looking up"), "{seen}");
    let seen = on_terminal(&folder, slow_list, "write pipe -o new 2> messages");
    assert!(!seen.contains("reading pipe"), "{seen}");
    assert_eq!(folder.bytes("messages"), b"");
    // A dumb terminal has no line that can be taken back.
    let seen = on_terminal_called("dumb", &folder, slow_list, "write pipe -o new");
    assert!(
        !seen.contains('\u{1b}') && seen.contains("new: 3 pairs"),
        "{seen}"
    );
}

/// A column that comes slowly shows how far it is.
#[test]
fn progress_of_a_loading() {
    if !has_programs(&["script"]) {
        return;
    }
    let folder = Folder::new("progress_loading");
    let ids: Vec<u32> = (0..700_000).collect();
    let values: Vec<i64> = (0..700_000).map(|value| value << 40).collect();
    folder.column("large", &ids, &values);
    let slow = "{ head -c 100000; sleep 1.3; cat; } < large > pipe";
    let seen = on_terminal(&folder, slow, "check pipe");
    assert!(seen.contains("loading pipe: "), "{seen}");
    assert!(seen.contains("pipe: sound, 700000 pairs"), "{seen}");
}
