//! Digests in every command: a changed score in a sound column is nowhere answered.

use std::fs;
use std::process::Command;

use crate::common::tool::{run, run_with, Folder};

/// A column and a set with their digests beside them, then changed by one bit that leaves them sound.
fn changed(name: &str) -> (Folder, String) {
    let folder = Folder::new(name);
    let ids: Vec<u32> = (0..100).collect();
    let values: Vec<i64> = (0..100).map(|value| value * value % 101).collect();
    folder.column("column", &ids, &values);
    folder.column("good", &ids, &values);
    folder.put("set", signalfern::set_write_to_vec(&[2, 5, 9]).unwrap());
    folder.put("list", "1 1\n2 2\n");
    folder.put("ids", "7\n");
    folder
        .shell("for f in column set list ids; do sha256sum $f > $f.sha256; done")
        .expect(0, &[]);
    let digest = folder.shell("sha256sum < column").out[..64].to_string();
    let mut bytes = folder.bytes("column");
    let middle = bytes.len() - 30;
    bytes[middle] ^= 1;
    folder.put("column", &bytes);
    let mut bytes = folder.bytes("set");
    *bytes.iter_mut().rev().nth(1).unwrap() ^= 2;
    assert!(signalfern::set_check(&bytes).is_ok());
    folder.put("set", &bytes);
    folder.put("list", "1 1\n2 3\n");
    folder.put("ids", "8\n");
    (folder, digest)
}

#[test]
fn every_command_compares_the_sidecar() {
    let (folder, _) = changed("digests_everywhere");
    for words in [
        "check column",
        "read column",
        "read column -o new",
        "read column --from 5 --limit 2",
        "look-up column 7",
        "look-up column --ids column.ids",
        "look-up --unchecked column 7",
        "look-up good 7 -c column",
        "look-up good --ids ids",
        "next column 7",
        "find column 0 1000",
        "find column 0 1000 --count",
        "stats column",
        "audit column 7",
        "audit good 7 --correction column",
        "show column --html new",
        "set check set",
        "set read set",
        "set find set 5",
        "write list -o new",
    ] {
        folder.put("column.ids", "7\n");
        let ran = folder.shell(&format!("signalfern {words}"));
        ran.expect(1, &["refusal 102, DIGEST", ".sha256  "]);
    }
    // Status 1 of a comparison is another answer.
    let ran = folder.shell("signalfern diff good column");
    ran.expect(2, &["refusal 102, DIGEST"]);
    let shown = folder.shell("signalfern show column");
    assert!(shown.out.contains("REFUSED (102, DIGEST)"), "{}", shown.out);
    assert_eq!(shown.status, 1);
    assert!(!folder.names().contains(&"new".to_string()));
    // Without the sidecar they are sound, and `check` says that nothing was compared.
    fs::remove_file(folder.path("column.sha256")).unwrap();
    folder
        .shell("signalfern look-up column 7")
        .expect(0, &["7 "]);
    let words = "; no digest was compared: a sound file may still hold changed scores\n";
    folder.shell("signalfern check column").expect(0, &[words]);
    let json = folder.shell("signalfern check --json column");
    json.expect(0, &["\"compared\":[]"]);
}

#[test]
fn every_command_compares_a_digest_that_is_given() {
    let (folder, digest) = changed("digests_given");
    fs::remove_file(folder.path("column.sha256")).unwrap();
    fs::remove_file(folder.path("set.sha256")).unwrap();
    for (words, is_there) in [
        ("check FILE", true),
        ("read FILE", true),
        ("look-up FILE 7", true),
        ("next FILE 7", true),
        ("find FILE 0 1000", true),
        ("stats FILE", true),
        ("audit FILE 7", true),
        ("show FILE --json", true),
        ("set check set", false),
        ("set read set", false),
        ("set find set 5", false),
    ] {
        let changed = words.replace("FILE", "column");
        let ran = folder.shell(&format!("signalfern {changed} --digest {digest}"));
        ran.expect_all(1, &["102", "DIGEST", "--digest"]);
        if is_there {
            let good = words.replace("FILE", "good");
            let ran = folder.shell(&format!("signalfern {good} --digest {digest}"));
            ran.expect(0, &[]);
        }
    }
    for command in ["look-up", "audit"] {
        let words = format!("signalfern {command} good 7 -c column --correction-digest {digest}");
        folder
            .shell(&words)
            .expect(1, &["column: refusal 102, DIGEST"]);
        let words = format!("signalfern {command} column 7 -c good --correction-digest {digest}");
        folder.shell(&words).expect(0, &[]);
    }
    run(&["look-up", "a", "7", "--correction-digest", &digest])
        .expect(2, &["--correction-digest is for a --correction"]);
}

/// Who writes leaves the digest beside, unless told not to.
#[test]
fn writers_leave_the_digest() {
    let folder = Folder::new("digests_written");
    folder.put("list", "1 1\n");
    folder.put("ids", "1\n");
    folder
        .shell("signalfern write list -o a && signalfern set write ids -o s")
        .expect(0, &[]);
    folder
        .shell("sha256sum -c a.sha256 s.sha256")
        .expect(0, &["a: OK", "s: OK"]);
    folder
        .shell("signalfern check a && signalfern set check s")
        .expect(0, &["a.sha256 tells", "s.sha256 tells"]);
    folder
        .shell("signalfern write list -o b --no-sidecar")
        .expect(0, &[]);
    folder
        .shell("signalfern set write ids -o t --no-sidecar")
        .expect(0, &[]);
    assert_eq!(
        folder.names(),
        ["a", "a.sha256", "b", "ids", "list", "s", "s.sha256", "t"]
    );
    run(&["write", "x", "-o", "y", "--sidecar", "--no-sidecar"]).expect(2, &["cannot read x"]);
    // A digest of more files than this one is not replaced, and nothing is written.
    folder.shell("sha256sum a list > a.sha256").expect(0, &[]);
    folder.put("list", "1 2\n");
    let before = folder.bytes("a");
    folder
        .shell("signalfern write list -o a")
        .expect(2, &["a.sha256: it is there and more than the digest"]);
    assert_eq!(folder.bytes("a"), before);
    folder
        .shell("signalfern write list -o a --force")
        .expect(0, &[]);
    folder
        .shell("signalfern check a")
        .expect(0, &["a.sha256 tells"]);
}

/// A pipe as a sidecar is not waited for; both forms of sha256sum are taken; all that is told must fit.
#[test]
fn forms_of_a_sidecar() {
    let folder = Folder::new("sidecar_forms");
    folder.column("column", &[1], &[1]);
    folder
        .shell("sha256sum --tag column > column.sha256")
        .expect(0, &[]);
    folder
        .shell("signalfern check column")
        .expect(0, &["column.sha256 tells"]);
    let other = format!("{}  column\n", "0".repeat(64));
    let both = [folder.bytes("column.sha256"), other.into_bytes()].concat();
    folder.put("column.sha256", both);
    folder
        .shell("signalfern look-up column 1")
        .expect(1, &["refusal 102, DIGEST"]);
    fs::remove_file(folder.path("column.sha256")).unwrap();
    let made = Command::new("mkfifo")
        .arg(folder.path("column.sha256"))
        .status()
        .unwrap();
    assert!(made.success());
    for words in ["check column", "look-up column 1", "read column"] {
        let ran = folder.shell(&format!("timeout 20 \"$SIGNALFERN\" {words}"));
        ran.expect(2, &["column.sha256: a sidecar is to be a plain file"]);
    }
    // Of standard input there is none.
    run_with(&["check", "-"], &folder.bytes("column")).expect(0, &["no digest was compared"]);
}
