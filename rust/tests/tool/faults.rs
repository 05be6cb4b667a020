//! The tool where the system denies it something: it says so and keeps its exit status.

use std::io::Write;
use std::process::Stdio;
use std::time::{Duration, Instant};

use crate::common::tool::{tool, Folder};
use signalfern::Edition;

/// A column of three pairs, and one with a bit flipped.
fn columns(folder: &Folder) {
    let mut bytes =
        signalfern::write_to_vec(&[0, 2, 7], &[150, 140, 135], Edition::Plain, 9).unwrap();
    folder.put("sound", &bytes);
    bytes[26] |= 1;
    folder.put("damaged", bytes);
}

#[test]
fn a_standard_error_that_cannot_be_written() {
    let folder = Folder::new("full_error");
    columns(&folder);
    folder.put("list", "4 4\n4 5\n");
    for (words, status) in [
        ("check damaged", 1),
        ("show damaged", 1),
        ("read damaged", 1),
        ("look-up sound 2147352576", 1),
        ("write list -o new", 1),
        ("check none", 2),
        ("frobnicate", 2),
        ("check", 2),
    ] {
        for error in ["2> /dev/full", "2>&-"] {
            let ran = folder.shell(&format!("signalfern {words} {error} > /dev/null"));
            assert_eq!(ran.status, status, "{words} {error}");
        }
    }
    // A report that cannot be printed is no panic either.
    folder.put("good", "4 4\n");
    let ran = folder.shell("signalfern write good -o - 2> /dev/full | cat > new");
    assert_eq!((ran.status, folder.bytes("new").len()), (0, 21));
}

/// Whoever reads no further may still ask for the status.
#[test]
fn closed_pipes_keep_the_status() {
    let folder = Folder::new("pipe_status");
    columns(&folder);
    for (words, status) in [
        ("look-up sound 2147352576 7", 1),
        ("look-up sound 7", 0),
        ("check sound damaged sound", 1),
        ("check sound none damaged", 2),
        ("check --json sound damaged", 1),
        ("show damaged", 1),
        ("read sound", 0),
    ] {
        let script = format!(
            "{{ sleep 0.3; signalfern {words} 2> /dev/null; echo $? > status; }} | true; sleep 0.1"
        );
        let script =
            format!("{script}; while ! [ -s status ]; do sleep 0.05; done; cat status; rm status");
        let ran = folder.shell(&script);
        assert_eq!(ran.out.trim(), status.to_string(), "{words}");
    }
}

/// The memory that the tool needs for itself, with room to spare, in kilobytes.
const LITTLE: &str = "ulimit -v 20000";

#[test]
fn memory_that_cannot_be_had() {
    let folder = Folder::new("memory");
    let lines: String = (0..2_000_000)
        .map(|id| format!("{id} {}\n", id % 7))
        .collect();
    folder.put("list", &lines);
    let ran = folder.shell(&format!("{LITTLE}; signalfern write list -o column"));
    ran.expect(2, &["signalfern: not enough memory"]);
    assert_eq!(folder.names(), ["list"]);
    folder
        .shell("signalfern write list -o column")
        .expect(0, &["2000000 pairs"]);
    folder
        .shell(&format!("{LITTLE}; signalfern check column"))
        .expect(0, &["sound"]);
    // The pairs do not fit, but can be read one after another.
    let script = format!("{LITTLE}; signalfern read column -o again && cmp again list");
    folder.shell(&script).expect(0, &[]);
    // A column that does not fit itself.
    let script = "truncate -s 1G large; ulimit -v 200000; signalfern check large";
    folder.put("large", header_of_a_gigabyte());
    folder
        .shell(script)
        .expect(2, &["signalfern: not enough memory: large takes"]);
    let piped = "ulimit -v 200000; cat large | signalfern check -";
    folder
        .shell(piped)
        .expect(2, &["signalfern: not enough memory: standard input takes"]);
}

/// A header of a column that has 2^30 bytes: one value of 64 bits, and an id section of the rest.
fn header_of_a_gigabyte() -> Vec<u8> {
    let mut header = vec![1, 1, 9];
    crate::common::parts::put_number(&mut header, (1 << 30) - 8 - 13);
    header.extend([0, 64, 0, 1, 8]);
    assert_eq!(header.len(), 13);
    header
}

/// Inputs without an end, or much too large, are refused by their first bytes.
#[test]
fn large_files_that_are_no_columns() {
    let folder = Folder::new("large_files");
    columns(&folder);
    let script = "truncate -s 20G large; cp sound appended; truncate -s 20G appended";
    folder.shell(script).expect(0, &[]);
    let start = Instant::now();
    for (words, refusal) in [
        ("check large", "refusal 9, EDITION"),
        ("read large", "refusal 9, EDITION"),
        ("look-up large 7", "refusal 9, EDITION"),
        ("look-up --unchecked large 7", "refusal 9, EDITION"),
        ("check /dev/zero", "refusal 9, EDITION"),
        ("check - < /dev/zero", "standard input: refusal 9, EDITION"),
        ("check appended", "27 bytes are a sound column"),
        ("check - < appended", "27 bytes are a sound column"),
        ("check - < <(cat sound /dev/zero)", "at least 63 too many"),
        (
            "write large -o new",
            "line 1: refusal 101, TEXT: it has more than 65536 bytes",
        ),
        (
            "write /dev/zero -o new",
            "/dev/zero: line 1: refusal 101, TEXT",
        ),
    ] {
        let ran = folder.shell(&format!("{LITTLE}; signalfern {words}"));
        ran.expect(1, &[refusal]);
    }
    assert!(start.elapsed() < Duration::from_secs(60));
    std::fs::remove_file(folder.path("large")).unwrap();
    std::fs::remove_file(folder.path("appended")).unwrap();
}

/// A list of ids that fails on the way does not take back what was answered.
#[test]
fn output_that_closes_between_answers() {
    let folder = Folder::new("closes_between");
    columns(&folder);
    let mut child = tool()
        .args(["look-up", &folder.path("sound"), "--ids", "-"])
        .stdin(Stdio::piped())
        .stdout(Stdio::piped())
        .stderr(Stdio::piped())
        .spawn()
        .unwrap();
    drop(child.stdout.take());
    let mut input = child.stdin.take().unwrap();
    input.write_all(b"2147352576\n").unwrap();
    // Enough answers to be handed on before the end.
    let _ = input.write_all("7\n".repeat(100_000).as_bytes());
    drop(input);
    let output = child.wait_with_output().unwrap();
    assert_eq!(output.status.code(), Some(1));
}
