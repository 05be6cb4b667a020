//! The gate's status and its last line, the sum over all its steps: `.ci/run`, with an `rt`, a `cargo` and
//! other scripts that say at once what the real ones would.

use std::path::Path;
use std::process::Command;

use crate::common::tool::{script, Folder, Ran};

/// `rt ci` where all is proved: plain, at the top of the checkout as it stands.
const PROVED: &str = "[ \"$*\" = ci ] && [ -f crates.txt ] && [ -f target/there ] || exit 1
sleep 0.1; echo 'rt: ok; handles allowed: none; must-fail edits: 94 refused; every proof ..'; echo '148 passed, 0 failed'";

/// One crate is not proved: the library, say.
const NOT_PROVED: &str = "echo 'rt: FAILED: signalfern'; echo '140 passed, 1 failed'; exit 1";

/// All is proved, and two edits show nothing.
const BAD_EDITS: &str = "echo 'rt: ok; handles allowed: none; must-fail edits: 92 refused, 1 of them only by a limit, 2 bad; every proof ..'
echo '146 passed, 0 failed'";

/// It ends well without its verdict.
const NO_VERDICT: &str = "echo '148 passed, 0 failed'";

const TESTS_PASS: &str = "echo 'test result: ok. 5 passed; 0 failed; 0 ignored; 0 measured'
echo 'test result: ok. 2 passed; 0 failed; 1 ignored; 0 measured'";

const ONE_TEST_FAILS: &str = "echo 'test result: FAILED. 4 passed; 1 failed; 0 ignored; 0 measured'
echo 'test result: ok. 2 passed; 0 failed; 0 ignored; 0 measured'; exit 101";

/// The archive, which is built only where `rt ci` has passed.
const ARCHIVE: &str = "mkdir -p $1/x86-64; touch $1/x86-64/libsignalfern_c.a
echo 'dist: 3 passed, 0 failed'; echo '1 passed, 0 failed, 1 skipped'";

/// The gate in a folder of its own, where no other programs are found than these.
fn gate(rt: &str, cargo: Option<&str>) -> (i32, String) {
    let folder = Folder::new("gate");
    let made = folder.shell(
        "mkdir bin crates python rust sqlite target temporary; touch crates.txt target/there
         for program in awk bash cat chmod cp dirname grep ln mkdir mktemp rm sed sleep tee touch; do
             found=$(command -v $program) && ln -s \"$found\" bin
         done; :",
    );
    made.expect(0, &[]);
    let scripts = Path::new(env!("CARGO_MANIFEST_DIR")).join("../.ci");
    let mut copy = Command::new("cp");
    let copied = copy.arg("-R").arg(scripts).arg(&folder.0).status();
    assert!(copied.unwrap().success());
    let contracts = "echo 'contracts: 22 passed, 0 failed'";
    for (name, body) in [
        (".ci/archive", ARCHIVE),
        (".ci/contracts", contracts),
        ("python/test", "echo '3 passed, 0 failed'"),
        ("sqlite/test", "echo '2 passed, 0 failed, 4 skipped'"),
    ] {
        script(&folder.0.join(name), body);
    }
    script(&folder.0.join("bin/rt"), rt);
    if let Some(cargo) = cargo {
        script(&folder.0.join("bin/cargo"), cargo);
    }
    let ran: Ran = Command::new(".ci/run")
        .current_dir(&folder.0)
        .env("PATH", folder.path("bin"))
        .env("TMPDIR", folder.path("temporary"))
        .output()
        .unwrap()
        .into();
    let last = ran.out.lines().last().unwrap_or_default().to_string();
    (ran.status, last)
}

#[test]
fn the_last_line_counts_all_and_what_did_not_run() {
    let killed = "kill -9 $$";
    let late = format!("sleep 1\n{TESTS_PASS}");
    let passed_over = format!("echo 'skipped: a: no b' >>$SIGNALFERN_SKIPPED\n{TESTS_PASS}");
    for (rt, cargo, status, last) in [
        (
            PROVED,
            Some(TESTS_PASS),
            0,
            "186 passed, 0 failed, 6 skipped",
        ),
        (PROVED, Some(&late), 0, "186 passed, 0 failed, 6 skipped"),
        (
            PROVED,
            Some(&passed_over),
            0,
            "185 passed, 0 failed, 7 skipped",
        ),
        (
            PROVED,
            Some(ONE_TEST_FAILS),
            1,
            "185 passed, 1 failed, 5 skipped",
        ),
        (
            PROVED,
            Some("exit 101"),
            1,
            "179 passed, 1 failed, 5 skipped",
        ),
        (PROVED, Some("exit 0"), 1, "179 passed, 1 failed, 5 skipped"),
        (PROVED, Some(killed), 1, "179 passed, 1 failed, 5 skipped"),
        (PROVED, None, 1, "179 passed, 1 failed, 5 skipped"),
        (
            NOT_PROVED,
            Some(TESTS_PASS),
            1,
            "145 passed, 4 failed, 4 skipped",
        ),
        (
            BAD_EDITS,
            Some(TESTS_PASS),
            1,
            "151 passed, 5 failed, 4 skipped",
        ),
        (
            NO_VERDICT,
            Some(TESTS_PASS),
            1,
            "153 passed, 4 failed, 4 skipped",
        ),
        (killed, Some(TESTS_PASS), 1, "5 passed, 4 failed, 4 skipped"),
    ] {
        assert_eq!(
            gate(rt, cargo),
            (status, last.to_string()),
            "{rt}\n{cargo:?}"
        );
    }
}
