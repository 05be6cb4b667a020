//! Runs of the tool, and folders for them.

use std::fs;
use std::io::Write;
use std::os::unix::fs::PermissionsExt;
use std::os::unix::process::ExitStatusExt;
use std::path::{Path, PathBuf};
use std::process::{Command, Output, Stdio};

use signalfern::Edition;

/// What a run of the tool left behind.
pub struct Ran {
    /// The exit status; for a signal, 128 and its number, as a shell has it.
    pub status: i32,
    pub out: String,
    pub err: String,
}

impl From<Output> for Ran {
    fn from(output: Output) -> Self {
        let signal = || 128 + output.status.signal().unwrap();
        Self {
            status: output.status.code().unwrap_or_else(signal),
            out: String::from_utf8_lossy(&output.stdout).into_owned(),
            err: String::from_utf8_lossy(&output.stderr).into_owned(),
        }
    }
}

impl Ran {
    /// A run that printed and did not complain, or complained and printed nothing.
    #[track_caller]
    pub fn expect(self, status: i32, words: &[&str]) -> Self {
        let silent = if status == 0 { &self.err } else { &self.out };
        assert!(silent.is_empty(), "{status}: {}{}", self.out, self.err);
        self.expect_all(status, words)
    }

    /// What an audit tells of ids, after what it tells of the files.
    pub fn of_ids(&self) -> &str {
        let start = self.out.find("\nid ").expect("an id is told of");
        &self.out[start + 1..]
    }

    /// A run with these words on either stream.
    #[track_caller]
    pub fn expect_all(self, status: i32, words: &[&str]) -> Self {
        let text = format!("{}{}", self.out, self.err);
        assert_eq!(self.status, status, "{text}");
        for word in words {
            assert!(text.contains(word), "no `{word}` in: {text}");
        }
        assert!(!text.contains("panicked"), "{text}");
        self
    }
}

/// The tool that was built with these tests. (`SIGNALFERN_TOOL` names another, such as one that is
/// installed.)
pub fn tool_path() -> String {
    std::env::var("SIGNALFERN_TOOL").unwrap_or(env!("CARGO_BIN_EXE_signalfern").to_string())
}

pub fn tool() -> Command {
    Command::new(tool_path())
}

pub fn run_with(words: &[&str], input: &[u8]) -> Ran {
    let mut child = tool()
        .args(words)
        .stdin(Stdio::piped())
        .stdout(Stdio::piped())
        .stderr(Stdio::piped())
        .spawn()
        .unwrap();
    // The tool may end before it reads.
    let _ = child.stdin.take().unwrap().write_all(input);
    child.wait_with_output().unwrap().into()
}

pub fn run(words: &[&str]) -> Ran {
    run_with(words, b"")
}

/// The names in a folder, sorted.
pub fn names_in(folder: impl AsRef<Path>) -> Vec<String> {
    let entries = fs::read_dir(folder).unwrap();
    let mut names: Vec<String> = entries
        .map(|entry| entry.unwrap().file_name().into_string().unwrap())
        .collect();
    names.sort();
    names
}

/// A new folder for one test, which goes with it: `rt ci` takes no checkout in which a link is left.
pub struct Folder(pub PathBuf);

impl Drop for Folder {
    fn drop(&mut self) {
        let _ = fs::remove_dir_all(&self.0);
    }
}

impl Folder {
    pub fn new(name: &str) -> Self {
        let path = Path::new(env!("CARGO_TARGET_TMPDIR")).join(name);
        let _ = fs::remove_dir_all(&path);
        fs::create_dir_all(&path).unwrap();
        Self(path)
    }

    pub fn path(&self, name: &str) -> String {
        self.0.join(name).to_str().unwrap().to_string()
    }

    pub fn put(&self, name: &str, bytes: impl AsRef<[u8]>) -> String {
        fs::write(self.0.join(name), bytes).unwrap();
        self.path(name)
    }

    /// A column of these pairs.
    pub fn column(&self, name: &str, ids: &[u32], values: &[i64]) -> String {
        self.put(
            name,
            signalfern::write_to_vec(ids, values, Edition::Plain, 9).unwrap(),
        )
    }

    pub fn bytes(&self, name: &str) -> Vec<u8> {
        fs::read(self.0.join(name)).unwrap()
    }

    pub fn names(&self) -> Vec<String> {
        names_in(&self.0)
    }

    /// Runs a script in the folder, as somebody would type it; `signalfern` is the tool.
    pub fn shell(&self, script: &str) -> Ran {
        let script = format!("signalfern() {{ \"$SIGNALFERN\" \"$@\"; }}\n{script}");
        let output = Command::new("bash")
            .args(["-c", &script])
            .current_dir(&self.0)
            .env("SIGNALFERN", tool_path())
            .stdin(Stdio::null())
            .output()
            .unwrap();
        output.into()
    }
}

/// Whether a program is there that a part of a test can do without.
pub fn has_program(name: &str) -> bool {
    let found = Command::new("sh")
        .args(["-c", "command -v \"$0\"", name])
        .output();
    found.is_ok_and(|output| output.status.success())
}

/// Whether the programs are there that a whole test needs. Where one is not, the test is passed over and
/// says so: in a line of the file that `SIGNALFERN_SKIPPED` names, which the gate counts, or else on
/// standard error.
pub fn has_programs(names: &[&str]) -> bool {
    let Some(missing) = names.iter().find(|name| !has_program(name)) else {
        return true;
    };
    let test = std::thread::current();
    let line = format!(
        "skipped: {}: no {missing}\n",
        test.name().unwrap_or_default()
    );
    match std::env::var_os("SIGNALFERN_SKIPPED") {
        Some(path) => {
            let mut told = fs::OpenOptions::new();
            let mut told = told.create(true).append(true).open(path).unwrap();
            told.write_all(line.as_bytes()).unwrap();
        }
        None => eprint!("{line}"),
    }
    false
}

/// A shell script that can be run.
pub fn script(path: &Path, body: &str) {
    fs::write(path, format!("#!/bin/sh\n{body}\n")).unwrap();
    fs::set_permissions(path, fs::Permissions::from_mode(0o755)).unwrap();
}
