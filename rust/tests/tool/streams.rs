//! Standard streams that are closed, or open the other way: never done without a word.

use crate::common::tool::Folder;

const COMMANDS: [&str; 12] = [
    "read c",
    "look-up c 7",
    "look-up c --ids ids",
    "next c 7",
    "find c 0 1000 --all",
    "stats c",
    "audit c 7",
    "show c",
    "check c",
    "set read s",
    "help",
    "--version",
];

fn folder(name: &str) -> Folder {
    let folder = Folder::new(name);
    folder.column("c", &[0, 2, 7], &[150, 140, 135]);
    folder.put("s", signalfern::set_write_to_vec(&[2, 5]).unwrap());
    folder.put("ids", "7\n");
    folder.put("list", "1 1\n");
    folder
}

#[test]
fn an_output_that_is_closed_or_read_only() {
    let folder = folder("streams_output");
    for words in COMMANDS {
        for stream in [">&-", "1< list"] {
            let ran = folder.shell(&format!("signalfern {words} {stream}"));
            ran.expect(2, &["cannot write to standard output"]);
        }
    }
    for stream in [">&-", "1< list"] {
        let ran = folder.shell(&format!("signalfern write list -o - {stream}"));
        ran.expect(2, &["cannot write to standard output"]);
        // What is written to a file is there; only the report is lost.
        let ran = folder.shell(&format!("signalfern write list -o new {stream}; rm new*"));
        assert!(ran.err.contains("; new is written"), "{}", ran.err);
    }
}

/// A column is worth nothing unless it is whole; what is printed may be read as far as one likes.
#[test]
fn a_reader_that_is_gone() {
    let folder = folder("streams_reader");
    let status = |words: &str| {
        let script = format!(
            "{{ sleep 0.3; signalfern {words} 2> err; echo $? > status; }} | true; sleep 0.1; \
             while ! [ -s status ]; do sleep 0.05; done; cat status err; rm status"
        );
        folder.shell(&script).out
    };
    assert!(status("write list -o -").starts_with("2\n"));
    assert!(status("write list -o -").contains("its reader is gone"));
    assert!(status("set write ids -o -").starts_with("2\n"));
    assert!(status("show c --html -").starts_with("2\n"));
    assert_eq!(status("read c"), "0\n");
}

#[test]
fn an_input_that_is_closed() {
    let folder = folder("streams_input");
    for words in [
        "write -o new",
        "write - -o new",
        "write /dev/stdin -o new",
        "set write -o new",
        "check -",
        "look-up c --ids -",
    ] {
        let ran = folder.shell(&format!("signalfern {words} <&-"));
        ran.expect(2, &["cannot read", "it is closed"]);
    }
    assert!(!folder.names().iter().any(|name| name.starts_with("new")));
    // Empty is another thing.
    folder
        .shell("signalfern write -o new < /dev/null")
        .expect(0, &["0 pairs"]);
}
