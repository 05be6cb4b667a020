//! The tool ended from outside while it writes: the output is the old file or the new one, and
//! nothing else stays.

use std::fs;
use std::path::Path;
use std::process::{Child, Command, Stdio};
use std::thread;
use std::time::{Duration, Instant};

use crate::common::tool::{tool_path, Folder, Ran};
use crate::common::Random;

/// The tool with its signals as a terminal gives them: a command that a shell runs in the background
/// has INT ignored, and so have the tests run by it.
fn tool() -> Command {
    let mut command = Command::new("env");
    command.args(["--default-signal=HUP,INT,TERM", &tool_path()]);
    command
}

fn signal(child: &Child, name: &str) {
    let script = format!("kill -{name} {}", child.id());
    let sent = Command::new("sh").args(["-c", &script]).status().unwrap();
    assert!(sent.success());
}

fn list(count: i64) -> String {
    (0..count)
        .map(|id| format!("{id} {}\n", id * id % 8191))
        .collect()
}

/// Starts a writing of `list` to `column`.
fn start(folder: &Folder) -> Child {
    let (list, column) = (folder.path("list"), folder.path("column"));
    let mut tool = tool();
    tool.args(["write", &list, "-o", &column, "--force"])
        .stdout(Stdio::null());
    tool.spawn().unwrap()
}

/// One writing, ended after a while; tells whether the signal came in time. Before it, the output is
/// `old`, or is not there.
fn end_after(folder: &Folder, wait: Duration, name: &str, old: Option<&[u8]>, new: &[u8]) -> bool {
    let column = folder.path("column");
    match old {
        Some(old) => drop(folder.put("column", old)),
        None => drop(fs::remove_file(&column)),
    }
    let mut child = start(folder);
    thread::sleep(wait);
    signal(&child, name);
    let in_time = child.wait().unwrap().code().is_none();
    wait_for_no_part(folder);
    let is = fs::read(&column).ok();
    assert!(is.as_deref() == old || is.as_deref() == Some(new), "{name}");
    let names = folder.names();
    let expected = |name: &String| ["column", "column.sha256", "list"].contains(&name.as_str());
    assert!(names.iter().all(expected), "{name}: {names:?}");
    in_time
}

#[test]
fn killed_at_fifty_random_moments() {
    let folder = Folder::new("killed");
    folder.put("list", list(150_000));
    let begin = Instant::now();
    assert!(start(&folder).wait().unwrap().success());
    let whole = begin.elapsed();
    let new = folder.bytes("column");
    let mut random = Random::new(13);
    let mut in_time = 0;
    for round in 0..50 {
        let wait = whole * random.below(1150) as u32 / 1000;
        let name = ["KILL", "TERM", "INT", "HUP"][round % 4];
        let old = format!("as it was in round {round}");
        let old = (round % 5 != 4).then_some(old.as_bytes());
        in_time += usize::from(end_after(&folder, wait, name, old, &new));
    }
    assert!(in_time >= 10, "{in_time} of 50");
}

/// The library that makes the moments between long enough to be hit.
fn slow_files(folder: &Folder) -> String {
    let source = Path::new(env!("CARGO_MANIFEST_DIR")).join("tests/tool/slow_files.c");
    let library = folder.path("slow_files.so");
    let built = Command::new("gcc")
        .args([
            "-Wall", "-Wextra", "-Werror", "-O1", "-shared", "-fPIC", "-o", &library,
        ])
        .arg(&source)
        .arg("-ldl")
        .output()
        .expect("gcc is installed");
    assert!(
        built.status.success(),
        "{}",
        String::from_utf8_lossy(&built.stderr)
    );
    library
}

/// Waits until the file under way has a name.
fn wait_for_part(folder: &Folder, child: &mut Child) {
    let start = Instant::now();
    while !folder.names().iter().any(|name| name.ends_with(".part")) {
        assert!(child.try_wait().unwrap().is_none(), "it ended too soon");
        assert!(
            start.elapsed() < Duration::from_secs(20),
            "no file is under way"
        );
        thread::sleep(Duration::from_millis(2));
    }
}

/// After SIGKILL another process removes the file, which may take a moment.
fn wait_for_no_part(folder: &Folder) {
    let start = Instant::now();
    while folder.names().iter().any(|name| name.ends_with(".part")) {
        assert!(start.elapsed() < Duration::from_secs(20), "it stays");
        thread::sleep(Duration::from_millis(2));
    }
}

#[test]
fn ended_between_the_file_and_its_name() {
    let folder = Folder::new("between");
    let tools = Folder::new("between_tools");
    let library = slow_files(&tools);
    let list = tools.put("list", list(1000));
    let column = folder.put("column", "as it was");
    for nameless in [true, false] {
        for (name, number) in [("HUP", 1), ("INT", 2), ("TERM", 15), ("KILL", 9)] {
            let mut command = tool();
            command.args(["write", &list, "-o", &column, "--force"]);
            command
                .env("LD_PRELOAD", &library)
                .env("SLOW_RENAME", "3000");
            if !nameless {
                command.env("NO_NAMELESS", "1");
            }
            let mut child = command.stdout(Stdio::null()).spawn().unwrap();
            wait_for_part(&folder, &mut child);
            signal(&child, name);
            let ran = Ran::from(child.wait_with_output().unwrap());
            assert_eq!(ran.status, 128 + number, "{name}");
            if name == "KILL" {
                wait_for_no_part(&folder);
            }
            assert_eq!(folder.names(), ["column"], "{name}, nameless: {nameless}");
            assert_eq!(folder.bytes("column"), b"as it was");
        }
    }
}

/// Without nameless files all else is as with them.
#[test]
fn file_systems_without_nameless_files() {
    let folder = Folder::new("named_files");
    let tools = Folder::new("named_tools");
    let library = slow_files(&tools);
    let list = tools.put("list", "1 1\n");
    let column = folder.path("column");
    for (text, status) in [("1 1\n", 0), ("2 1\n1 1\n", 1), ("1 1\n", 0)] {
        fs::write(&list, text).unwrap();
        let mut command = tool();
        command.args(["write", &list, "-o", &column]);
        command.env("LD_PRELOAD", &library).env("NO_NAMELESS", "1");
        assert_eq!(command.output().unwrap().status.code(), Some(status));
        assert_eq!(folder.bytes("column").len(), 21);
        assert_eq!(folder.names(), ["column", "column.sha256"]);
    }
}

/// Started by nohup, it is not ended by a hang-up.
#[test]
fn a_signal_that_is_ignored_stays_so() {
    let folder = Folder::new("nohup");
    let tools = Folder::new("nohup_tools");
    let library = slow_files(&tools);
    let list = tools.put("list", "1 1\n");
    let column = folder.put("column", "as it was");
    let script = "trap '' HUP; exec \"$0\" \"$@\"";
    let mut child = Command::new("bash")
        .args([
            "-c",
            script,
            &crate::common::tool::tool_path(),
            "write",
            &list,
            "-o",
            &column,
            "--force",
        ])
        .env("LD_PRELOAD", &library)
        .env("SLOW_RENAME", "1000")
        .stdout(Stdio::null())
        .spawn()
        .unwrap();
    wait_for_part(&folder, &mut child);
    signal(&child, "HUP");
    assert_eq!(child.wait().unwrap().code(), Some(0));
    assert_eq!(folder.bytes("column").len(), 21);
    assert_eq!(folder.names(), ["column", "column.sha256"]);
}
