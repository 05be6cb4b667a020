//! What `-o` takes the place of: a file that can be made again, and any other by force alone.

use std::fs;

use crate::common::tool::Folder;

#[test]
fn what_is_no_column_stays() {
    let folder = Folder::new("replaced");
    folder.put("list", "1 1\n");
    folder.put("ids", "1\n");
    folder.put("text", "my only copy\n");
    folder.column("column", &[7], &[7]);
    folder.put("set", signalfern::set_write_to_vec(&[9]).unwrap());
    folder.put("cut", &folder.bytes("column")[..15]);
    folder.put("empty", "");
    for (words, output, why) in [
        (
            "write list",
            "text",
            "it is there and no column that signalfern wrote; --force replaces it",
        ),
        ("write list", "set", "no column that signalfern wrote"),
        ("write list", "cut", "no column that signalfern wrote"),
        ("set write ids", "text", "no set that signalfern wrote"),
        ("set write ids", "column", "no set that signalfern wrote"),
        (
            "read column",
            "text",
            "it is there and not empty; --force replaces it",
        ),
        ("set read set", "text", "not empty"),
        (
            "show column --html text #",
            "text",
            "no report that signalfern wrote",
        ),
    ] {
        let before = folder.bytes(output);
        let option = if words.contains("--html") { "" } else { "-o" };
        let ran = folder.shell(&format!("signalfern {words} {option} {output}"));
        ran.expect(2, &[&format!("cannot write {output}: "), why]);
        assert_eq!(folder.bytes(output), before, "{words}");
    }
    for (words, output) in [
        ("write list", "column"),
        ("write list", "empty"),
        ("set write ids", "set"),
        ("write list --force", "text"),
        ("read column --force", "text"),
    ] {
        folder
            .shell(&format!("signalfern {words} -o {output}"))
            .expect(0, &[]);
    }
    assert_eq!(folder.bytes("text"), b"1 1\n");
}

/// A folder in which no file can be made is named.
#[test]
fn folders_that_cannot_be_written() {
    let folder = Folder::new("replaced_folders");
    folder.put("list", "1 1\n");
    for (output, why) in [
        ("none/new", "there is no folder none"),
        ("list/new", "list is no folder"),
        ("/proc/new", "no file can be made in the folder /proc: "),
    ] {
        let ran = folder.shell(&format!("signalfern write list -o {output}"));
        ran.expect(2, &[&format!("cannot write {output}: "), why]);
    }
    assert_eq!(fs::read_dir(&folder.0).unwrap().count(), 1);
}
