//! conform: programs of other makers, good and bad; the example maker and the slips in it, where Python is there.

use std::path::{Path, PathBuf};
use std::process::Command;

use crate::common::tool::{has_program, run, tool_path, Folder};

fn conformance() -> PathBuf {
    Path::new(env!("CARGO_MANIFEST_DIR")).join("../conformance")
}

/// A folder with three vectors of two calls in two classes.
fn three_vectors(name: &str) -> Folder {
    let folder = Folder::new(name);
    std::fs::create_dir(folder.0.join("vectors")).unwrap();
    folder.put(
        "numbers.json",
        r#"{"classes": {"reader": ["check"], "judge": ["judge"]}}"#,
    );
    let line = |call: &str, number: u32, kind: &str| {
        format!(
            r#"{{"name":"{call}-{number}","about":"a vector","call":"{call}","given":{{"bytes":"0{number}"}},"reply":{{"kind":"{kind}","number":"{number}"}}}}"#
        ) + "\n"
    };
    folder.put(
        "vectors/check.jsonl",
        line("check", 1, "done") + &line("check", 2, "done"),
    );
    folder.put("vectors/judge.jsonl", line("judge", 3, "faulty"));
    folder
}

/// Runs a program in the shell over the three vectors; `line` is a vector as the program sees it.
fn conform(folder: &Folder, program: &str, words: &[&str]) -> crate::common::tool::Ran {
    let path = folder.0.to_str().unwrap();
    let program = format!("while read -r line; do {program}; done");
    run(&[
        &["conform", "--vectors", path],
        words,
        &["--", "sh", "-c", &program],
    ]
    .concat())
}

/// What each of the three asks for, in the shell.
const RIGHT: &str = r#"case $line in
    *check-1*) echo '{"number":1, "kind":"done"}';;
    *check-2*) echo '{"kind":"done","number":"2"}';;
    *) echo '{"kind":"faulty","number":3}';;
esac"#;

#[test]
fn what_conforms() {
    let folder = three_vectors("conform");
    let ran = conform(&folder, RIGHT, &[]).expect(0, &[]);
    assert_eq!(
        ran.out,
        "check                2 of 2\njudge                1 of 1\nconforms as reader, judge\n"
    );
    // One call alone says nothing of the others.
    let ran =
        conform(&folder, RIGHT, &["--only", "check"]).expect(0, &["check                2 of 2\n"]);
    assert!(
        ran.out
            .ends_with("conforms as reader; not as judge (1 not asked)\n"),
        "{}",
        ran.out
    );
}

/// The program is not told what is expected.
#[test]
fn what_the_program_is_told() {
    let folder = three_vectors("conform_told");
    let told = folder.path("told");
    conform(
        &folder,
        &format!("echo \"$line\" >> '{told}'; echo null"),
        &[],
    )
    .expect_all(1, &[]);
    let told = String::from_utf8(folder.bytes("told")).unwrap();
    let first = r#"{"name":"check-1","call":"check","given":{"bytes":"01"}}"#;
    assert_eq!(told.lines().next(), Some(first));
    assert!(
        told.lines().count() == 3 && !told.contains("reply"),
        "{told}"
    );
}

#[test]
fn what_differs_is_shown() {
    let folder = three_vectors("conform_differs");
    let ran = conform(&folder, r#"echo '{"kind":"done","number":1}'"#, &[]).expect_all(1, &[]);
    for words in [
        "check-2: a vector\n  given     {\"bytes\":\"02\"}\n  expected  {\"kind\":\"done\",\"number\":\"2\"}\n  replied   {\"kind\":\"done\",\"number\":1}\n",
        "check                1 of 2\n",
        "judge                0 of 1\n",
        "conforms as nothing; not as reader (1 differ), judge (1 differ)\n",
    ] {
        assert!(ran.out.contains(words), "{words}: {}", ran.out);
    }
    let ran = conform(&folder, "echo no", &["--first"])
        .expect_all(1, &["stopped at the first difference"]);
    assert!(
        ran.out.contains("replied   no\n") && !ran.out.contains("check-2"),
        "{}",
        ran.out
    );
}

#[test]
fn what_is_not_supported() {
    let folder = three_vectors("conform_unsupported");
    let judge_alone = RIGHT.replace(
        r#"{"number":1, "kind":"done"}"#,
        r#"{"kind":"unsupported"}"#,
    );
    let ran = conform(&folder, &judge_alone, &[])
        .expect(0, &["check                1 of 1, 1 not supported\n"]);
    assert!(
        ran.out
            .ends_with("conforms as judge; not as reader (1 not supported)\n"),
        "{}",
        ran.out
    );
    // Nothing at all passed: that is no success.
    let none = conform(&folder, r#"echo '{"kind":"unsupported"}'"#, &[]);
    none.expect_all(
        1,
        &[
            "check                not supported\n",
            "conforms as nothing",
        ],
    );
}

/// Programs that end, wait, or have no end.
#[test]
fn bounded_time_and_length() {
    let folder = three_vectors("conform_bounded");
    let ended = conform(&folder, "exit 3", &[]);
    ended.expect_all(1, &["check-1: a vector", "replied   the program ended"]);
    let slow = conform(&folder, "exec sleep 60", &["--seconds", "1", "--first"]);
    slow.expect_all(1, &["replied   no reply within 1 seconds"]);
    let endless = conform(&folder, "exec tr '\\0' x </dev/zero", &["--first"]);
    endless.expect_all(1, &["replied   the reply has no end"]);
    let strange = conform(&folder, "printf '\\033[2J\\377\\n'", &["--first"]);
    strange.expect_all(1, &["replied   \\u{1b}[2J"]);
}

#[test]
fn wrong_command_lines() {
    let folder = three_vectors("conform_wrong");
    let path = folder.0.to_str().unwrap();
    run(&["conform"]).expect(2, &["no program is named", "--help"]);
    run(&["conform", "--vectors", path, "--only", "x", "true"])
        .expect(2, &["no vectors of a call `x`"]);
    run(&["conform", "--vectors", path, "--seconds", "x", "true"])
        .expect(2, &["`x` is no count of seconds"]);
    run(&["conform", "--vectors", path, "no-such-program"])
        .expect(2, &["cannot run no-such-program"]);
    run(&["conform", "--vectors", "no-such-folder", "true"])
        .expect(2, &["cannot read no-such-folder/numbers.json"]);
    folder.put("numbers.json", "{");
    run(&["conform", "--vectors", path, "true"]).expect(2, &["numbers.json: no JSON"]);
}

/// Whether Python is there; if not, that is said, and nothing is tested.
fn has_python() -> bool {
    let there = has_program("python3");
    if !there {
        eprintln!("python3 is not installed: the example maker is not tested");
    }
    there
}

#[test]
fn the_example_maker() {
    if !has_python() {
        return;
    }
    let (folder, maker) = (conformance(), conformance().join("example/maker.py"));
    let [folder, maker] = [&folder, &maker].map(|path| path.to_str().unwrap());
    // (-B: no compiled files are left beside it.)
    let words = ["conform", "--seconds", "60", "--vectors", folder];
    let program = ["--", "python3", "-B", maker];
    let ran = run(&[&words[..], &program].concat()).expect(0, &[]);
    assert!(
        ran.out
            .ends_with("conforms as writer, reader, judge, set, opened, walker, opened_walker, layers, opened_layers\n"),
        "{}",
        ran.out
    );
}

/// Each slip in the example maker is caught by some vector.
#[test]
fn slips_are_caught() {
    if !has_python() {
        return;
    }
    let output = Command::new("python3")
        .arg(conformance().join("example/slips.py"))
        .arg(tool_path())
        .output()
        .unwrap();
    let told = String::from_utf8_lossy(&output.stdout);
    assert!(
        output.status.success(),
        "{told}{}",
        String::from_utf8_lossy(&output.stderr)
    );
    assert!(
        told.lines().count() > 30 && told.ends_with(" slips, 0 not caught\n"),
        "{told}"
    );
}
