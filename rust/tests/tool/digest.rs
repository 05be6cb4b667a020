//! Digests: how a changed score is found where the format cannot show it.

use std::fs;

use crate::common::tool::{run, run_with, Folder};

/// The digest that sha256sum gives.
fn digest_of(folder: &Folder, name: &str) -> String {
    let ran = folder
        .shell(&format!("sha256sum < '{name}'"))
        .expect(0, &[]);
    ran.out[..64].to_string()
}

#[test]
fn digests_are_those_of_sha256sum() {
    let folder = Folder::new("digests");
    for count in [0, 1, 3, 40, 100, 70_000] {
        let lines: String = (0..count).map(|id| format!("{id} {}\n", id % 13)).collect();
        folder.put("list", lines);
        let written = folder
            .shell("signalfern write list -o column")
            .expect(0, &[]);
        let digest = digest_of(&folder, "column");
        assert!(written.out.ends_with(&format!("bytes, SHA-256 {digest}\n")));
        let column = folder.path("column");
        run(&["check", &column]).expect(0, &[&format!(", SHA-256 {digest} as ")]);
        let json = format!("\"sha256\":\"{digest}\"");
        run(&["check", "--json", &column]).expect(0, &[&json]);
        let told = run(&["check", &column, "--digest", &digest.to_uppercase()]);
        told.expect(0, &["as --digest and ", ".sha256 tells"]);
    }
}

/// A flipped bit in a value gives another sound column: only the digest tells.
#[test]
fn a_changed_score_is_sound_and_refused_by_its_digest() {
    let folder = Folder::new("changed_score");
    let values: Vec<i64> = (0..100).map(|value| value * value % 101).collect();
    let ids: Vec<u32> = (0..100).collect();
    let column = folder.column("column", &ids, &values);
    let digest = digest_of(&folder, "column");
    let mut bytes = folder.bytes("column");
    let middle = bytes.len() - 30;
    bytes[middle] ^= 1;
    let changed = folder.put("changed", &bytes);
    run(&["check", &changed]).expect(0, &["sound"]);
    let words = [
        "refusal 102, DIGEST",
        "SHA-256 of the file",
        &digest,
        "do not use what it holds",
    ];
    run(&["check", &changed, "--digest", &digest]).expect(1, &words);
    run(&["check", "-q", &changed, "--digest", &digest]).expect(1, &words);
    run(&["check", "-q", &column, "--digest", &digest]).expect(0, &[]);
    let piped = run_with(&["check", "-", "--digest", &digest], &bytes);
    piped.expect(1, &["standard input: refusal 102, DIGEST"]);
    // The library's refusals come first.
    bytes.pop();
    let short = folder.put("short", &bytes);
    run(&["check", &short, "--digest", &digest]).expect(1, &["refusal 11, LENGTH"]);
}

#[test]
fn sidecars() {
    let folder = Folder::new("sidecars");
    folder.put("list", "1 1\n");
    for name in ["column", "two words", "back\\slash", "line\nend", "-dash"] {
        let column = folder.path(name);
        let sidecar = format!("{column}.sha256");
        run(&["write", &folder.path("list"), "-o", &column]).expect(0, &["1 pair"]);
        folder
            .shell("for s in ./*.sha256; do sha256sum -c \"$s\" || exit 1; done")
            .expect(0, &[]);
        run(&["check", &column]).expect(0, &[".sha256 tells"]);
        let other = fs::read_to_string(&sidecar)
            .unwrap()
            .replace(['1', '2'], "3");
        fs::write(&sidecar, other).unwrap();
        run(&["check", &column]).expect(1, &["refusal 102, DIGEST", ".sha256  "]);
        fs::write(&sidecar, "no digest\n").unwrap();
        run(&["check", &column]).expect(2, &["has no line `DIGEST  "]);
        fs::remove_file(&sidecar).unwrap();
        run(&["check", &column]).expect(0, &["sound"]);
        // One that sha256sum made serves as well.
        let made = "for c in ./*; do [ \"$c\" = ./list ] || sha256sum \"$c\" > \"$c.sha256\"; done";
        folder.shell(made).expect(0, &[]);
        run(&["check", &column]).expect(0, &[".sha256 tells"]);
        fs::remove_file(&sidecar).unwrap();
        fs::remove_file(&column).unwrap();
    }
    assert_eq!(folder.names(), ["list"]);
    run(&["write", "--sidecar", "-o", "-"])
        .expect(2, &["--sidecar needs an output that is a file with a name"]);
}

/// A sidecar of the column before is not left unmentioned.
#[test]
fn an_old_sidecar() {
    let folder = Folder::new("old_sidecar");
    folder.put("list", "1 1\n");
    let written = folder
        .shell("signalfern write list -o column")
        .expect(0, &[]);
    let again = folder
        .shell("signalfern write list --no-sidecar -o column")
        .expect(0, &[]);
    assert_eq!(written.out, again.out);
    folder.put("list", "1 2\n");
    let warned = folder.shell("signalfern write list --no-sidecar -o column");
    warned.expect_all(0, &["column.sha256 is of another file: take it away"]);
    folder
        .shell("signalfern check column")
        .expect(1, &["refusal 102, DIGEST"]);
    folder
        .shell("signalfern write list --sidecar -o column")
        .expect(0, &[]);
    folder
        .shell("signalfern check column")
        .expect(0, &["column.sha256 tells"]);
    assert_eq!(folder.names(), ["column", "column.sha256", "list"]);
}
