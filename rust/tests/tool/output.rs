//! Where the tool's results go: files that stay whole, pipes and devices that stay what they are.

use std::fs;
use std::os::unix::fs::{FileTypeExt, MetadataExt, PermissionsExt};
use std::process::Stdio;
use std::thread;
use std::time::{Duration, Instant};

use crate::common::tool::{run, run_with, tool, Folder};
use signalfern::Edition;

/// The column of the list `1 1`.
fn one_pair() -> Vec<u8> {
    signalfern::write_to_vec(&[1], &[1], Edition::Plain, 9).unwrap()
}

#[test]
fn standard_output() {
    let folder = Folder::new("standard_output");
    folder.put("list", "1 1\n");
    for output in ["-", "/dev/stdout"] {
        let ran = folder.shell(&format!("signalfern write list -o {output} > got"));
        assert_eq!((ran.status, ran.out.as_str()), (0, ""), "{}", ran.err);
        assert!(
            ran.err.starts_with("standard output: 1 pair in"),
            "{}",
            ran.err
        );
        assert_eq!(folder.bytes("got"), one_pair());
        // The file that the shell opened is the one that was written to.
        let script = format!("exec 3> got; signalfern write list -o {output} >&3 2>/dev/null");
        folder.put("got", "other");
        let before = fs::metadata(folder.path("got")).unwrap().ino();
        folder.shell(&script).expect(0, &[]);
        assert_eq!(folder.bytes("got"), one_pair());
        assert_eq!(fs::metadata(folder.path("got")).unwrap().ino(), before);
        let piped = format!("signalfern write list -o {output} 2>/dev/null | cat > got");
        folder.shell(&piped).expect(0, &[]);
        assert_eq!(folder.bytes("got"), one_pair());
    }
    folder
        .shell("signalfern read got -o - | cat")
        .expect(0, &["1 1"]);
    let other = folder.shell("signalfern write list -o /dev/fd/3 3> got");
    other.expect(0, &["/dev/fd/3: 1 pair"]);
    assert_eq!(folder.bytes("got"), one_pair());
    assert_eq!(folder.names(), ["got", "list"]);
}

#[test]
fn pipes_and_devices_are_written_to() {
    let folder = Folder::new("pipes");
    folder.put("list", "1 1\n");
    let script = "mkfifo pipe; timeout 60 cat pipe > got & signalfern write list -o pipe && wait";
    folder.shell(script).expect(0, &["pipe: 1 pair"]);
    assert!(fs::metadata(folder.path("pipe"))
        .unwrap()
        .file_type()
        .is_fifo());
    assert_eq!(folder.bytes("got"), one_pair());
    let full = folder.shell("signalfern write list -o /dev/full");
    full.expect(2, &["cannot write /dev/full: No space left on device"]);
    folder
        .shell("signalfern write list -o /dev/null")
        .expect(0, &["/dev/null: 1 pair"]);
    assert!(fs::metadata("/dev/null")
        .unwrap()
        .file_type()
        .is_char_device());
    let full = folder.shell("signalfern write list -o new > /dev/full; mv new got");
    assert!(full
        .err
        .contains("No space left on device (os error 28); new is written"));
    let full = folder.shell("signalfern read got -o /dev/full");
    full.expect(2, &["cannot write /dev/full"]);
    let full = folder.shell("signalfern read got > /dev/full");
    full.expect(
        2,
        &["cannot write to standard output: No space left on device"],
    );
    assert_eq!(folder.names(), ["got", "list", "new.sha256", "pipe"]);
}

#[test]
fn outputs_that_cannot_be() {
    let folder = Folder::new("outputs");
    let column = folder.put("column", one_pair());
    fs::create_dir(folder.path("folder")).unwrap();
    for output in ["folder", "none/column", "folder/", "column/x"] {
        let output = folder.path(output);
        run_with(&["write", "-o", &output], b"1 1\n").expect(2, &["cannot write", &output]);
        run(&["read", &column, "-o", &output]).expect(2, &["cannot write", &output]);
    }
    assert_eq!(folder.names(), ["column", "folder"]);
}

/// A wrong output or option is told at once, while the input is still to come.
#[test]
fn outputs_and_options_are_tested_before_the_input() {
    let folder = Folder::new("before_input");
    let none = folder.path("none/column");
    for words in [
        &["write", "-o", &none][..],
        &["write", "-o", "x", "-p", "6"],
    ] {
        let mut child = tool()
            .args(words)
            .stdin(Stdio::piped())
            .stderr(Stdio::piped())
            .spawn()
            .unwrap();
        let start = Instant::now();
        let status = loop {
            if let Some(status) = child.try_wait().unwrap() {
                break status.code();
            }
            if start.elapsed() > Duration::from_secs(20) {
                child.kill().unwrap();
                panic!("it waits for its input");
            }
            thread::sleep(Duration::from_millis(10));
        };
        assert_eq!(status, Some(2));
    }
}

#[test]
fn links_stay_links() {
    let folder = Folder::new("links");
    folder.put("column", "");
    for (link, target) in [("link", "column"), ("dangling", "new")] {
        std::os::unix::fs::symlink(target, folder.path(link)).unwrap();
        run_with(&["write", "-o", &folder.path(link)], b"1 1\n").expect(0, &["1 pair"]);
        assert!(fs::symlink_metadata(folder.path(link))
            .unwrap()
            .is_symlink());
        assert_eq!(folder.bytes(target), one_pair());
    }
    assert_eq!(
        folder.names(),
        [
            "column",
            "dangling",
            "dangling.sha256",
            "link",
            "link.sha256",
            "new"
        ]
    );
}

#[test]
fn an_output_that_is_an_input_is_refused() {
    let folder = Folder::new("same_file");
    folder.put("list", "1 1\n");
    folder.put("column", one_pair());
    fs::hard_link(folder.path("list"), folder.path("hard")).unwrap();
    std::os::unix::fs::symlink("list", folder.path("soft")).unwrap();
    for script in [
        "signalfern write list -o list",
        "signalfern write list -o ./hard",
        "signalfern write soft -o hard",
        "signalfern write -o soft < list",
        "signalfern read column -o column",
    ] {
        folder
            .shell(script)
            .expect(2, &["it is the input", "name another output"]);
        assert_eq!(folder.bytes("list"), b"1 1\n");
        assert_eq!(folder.bytes("column"), one_pair());
    }
    assert_eq!(folder.names(), ["column", "hard", "list", "soft"]);
}

#[test]
fn read_only_files_are_replaced_by_force_alone() {
    let folder = Folder::new("read_only");
    let list = folder.put("list", "1 1\n");
    let kept = folder.put("kept", "as it was");
    fs::set_permissions(&kept, fs::Permissions::from_mode(0o440)).unwrap();
    let refused = run(&["write", &list, "-o", &kept]);
    refused.expect(2, &["it is there and not writable; --force replaces it"]);
    assert_eq!(folder.bytes("kept"), b"as it was");
    run(&["write", &list, "-o", &kept, "--force"]).expect(0, &["1 pair"]);
    assert_eq!(folder.bytes("kept"), one_pair());
    assert_eq!(
        fs::metadata(&kept).unwrap().permissions().mode() & 0o777,
        0o440
    );
    assert_eq!(folder.names(), ["kept", "kept.sha256", "list"]);
}

/// A command before us that failed leaves us an empty input.
#[test]
fn an_empty_standard_input_replaces_nothing() {
    let folder = Folder::new("empty_input");
    let kept = folder.put("kept", one_pair());
    for script in [
        "signalfern write -o kept < /dev/null",
        "signalfern write -o kept <&-",
        "false | signalfern write -o kept",
        "signalfern write - -o kept < .",
        "false | signalfern write /dev/stdin -o kept",
    ] {
        folder.shell(script).expect(2, &["standard input"]);
        assert_eq!(folder.bytes("kept"), one_pair(), "{script}");
    }
    folder
        .shell("signalfern write -o new < /dev/null")
        .expect(0, &["0 pairs"]);
    folder.put("empty", "");
    folder
        .shell("signalfern write empty -o kept")
        .expect(0, &["0 pairs"]);
    folder.put("kept", one_pair());
    folder
        .shell("signalfern write -fo kept < /dev/null")
        .expect(0, &["0 pairs"]);
    run(&["check", &kept]).expect(0, &["0 pairs"]);
    assert_eq!(
        folder.names(),
        ["empty", "kept", "kept.sha256", "new", "new.sha256"]
    );
}

#[test]
fn names_as_long_as_can_be() {
    let folder = Folder::new("long_names");
    let list = folder.put("list", "1 1\n");
    let name = "n".repeat(255);
    for _ in 0..2 {
        run(&["write", &list, "-o", &folder.path(&name)])
            .expect_all(0, &["1 pair", "no digest beside", "the name is too long"]);
        assert_eq!(folder.bytes(&name), one_pair());
    }
    run(&["write", &list, "-o", &folder.path(&"n".repeat(256))]).expect(2, &["cannot write"]);
    assert_eq!(folder.names(), ["list", &name]);
}

/// Many at once at the same place: each is whole, and the last one stays.
#[test]
fn writers_side_by_side() {
    let folder = Folder::new("side_by_side");
    let list = folder.put("list", "1 1\n");
    let column = folder.path("column");
    let children: Vec<_> = (0..24)
        .map(|_| {
            let mut tool = tool();
            tool.args(["write", &list, "-o", &column])
                .stdout(Stdio::null());
            tool.spawn().unwrap()
        })
        .collect();
    for mut child in children {
        assert!(child.wait().unwrap().success());
    }
    assert_eq!(folder.bytes("column"), one_pair());
    assert_eq!(folder.names(), ["column", "column.sha256", "list"]);
}

/// A limit on files, as a quota sets one: the old file stays.
#[test]
fn a_disk_that_is_too_small() {
    let folder = Folder::new("small_disk");
    let lines: String = (0..100_000_i64)
        .map(|id| format!("{id} {}\n", id * id % 8191))
        .collect();
    folder.put("list", lines);
    folder.put("column", one_pair());
    let ran = folder.shell("ulimit -f 20; exec \"$SIGNALFERN\" write list -o column");
    assert_ne!(ran.status, 0);
    assert_eq!(folder.bytes("column"), one_pair());
    assert_eq!(folder.names(), ["column", "list"]);
}
