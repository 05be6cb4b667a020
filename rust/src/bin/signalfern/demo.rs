//! demo: every command on a small column.

use std::ffi::OsString;
use std::fs;
use std::hash::{BuildHasher, RandomState};
use std::io::Write;
use std::os::unix::ffi::OsStrExt;
use std::path::{Path, PathBuf};

use crate::arguments::Arguments;
use crate::failure::Failure;
use crate::json::Object;
use crate::output::{print, Output};
use crate::replaced::Replaces;
use crate::sidecar;
use crate::text::{named, typed_word};

/// The lists and columns that it leaves in its folder, and beside each column its digest.
const FILES: [&str; 8] = [
    "scores.txt",
    "scores.column",
    "again.txt",
    "correction.txt",
    "correction.column",
    "runs.column",
    "few.txt",
    "few.column",
];

/// How the commands are run and shown.
#[derive(Clone, Copy)]
struct Demo {
    json: bool,
}

pub fn run(mut arguments: Arguments) -> Result<(), Failure> {
    let demo = Demo {
        json: arguments.has("json"),
    };
    let folder = arguments.next().map(PathBuf::from);
    arguments.finish()?;
    let folder = match folder {
        Some(folder) => fs::create_dir_all(&folder)
            .map(|()| folder.clone())
            .map_err(|error| Failure::file("make", &folder, &error))?,
        None => new_folder()?,
    };
    let files = FILES.map(|name| folder.join(name));
    let sidecars = files.iter().map(|path| sidecar::path_of(path));
    for path in files.iter().cloned().chain(sidecars) {
        let path = &path;
        if fs::symlink_metadata(path).is_ok() {
            let message = format!("{} is there already, and is not replaced", named(path));
            return Err(Failure::Trouble(message));
        }
    }
    let [list, column, again, fixes, correction, runs, few, table] = &files;
    demo.there_and_back(list, column, again)?;
    let ids = ["7", "8", "70001", "200000", "2147352575"].map(Path::new);
    demo.step(&[&["look-up".as_ref(), column.as_path()], &ids[..]].concat())?;
    let from = ["60000", "--count", "3"].map(Path::new);
    demo.step(&[&["next".as_ref(), column.as_path()], &from[..]].concat())?;
    demo.corrected(column, fixes, correction)?;
    demo.in_runs(list, runs)?;
    demo.few_distinct(few, table)?;
    demo.step(&["show".as_ref(), column])?;
    match demo.json {
        false => print(&format!("\nThe files are in {}\n", named(&folder))),
        true => print(&Object::new().file("folder", &folder).line()),
    }
}

impl Demo {
    /// The scores are written, checked and read.
    fn there_and_back(self, list: &Path, column: &Path, again: &Path) -> Result<(), Failure> {
        Output::open(list, false, Replaces::Nothing, &[])?.fill(write_scores)?;
        self.step(&["write".as_ref(), list, "-o".as_ref(), column])?;
        self.step(&["check".as_ref(), column])?;
        self.step(&["read".as_ref(), column, "-o".as_ref(), again])?;
        let read =
            |path: &Path| fs::read(path).map_err(|error| Failure::file("read", path, &error));
        if !self.json && read(list)? != read(again)? {
            let message = "the pairs read are not those written";
            return Err(Failure::Trouble(message.to_string()));
        }
        match self.json {
            false => print("the same lines as at first\n"),
            true => Ok(()),
        }
    }

    /// A correction is laid on top: another score for 7, and one for 70000, which had none.
    fn corrected(self, column: &Path, fixes: &Path, correction: &Path) -> Result<(), Failure> {
        Output::open(fixes, false, Replaces::Nothing, &[])?
            .fill(|out| out.write_all(b"7 200\n70000 90\n"))?;
        self.step(&["write".as_ref(), fixes, "-o".as_ref(), correction])?;
        let ids = ["7", "70000", "70001"].map(Path::new);
        let layers = [column, "--correction".as_ref(), correction];
        self.step(&[&["look-up".as_ref()], &layers[..], &ids].concat())?;
        self.step(&[&["audit".as_ref()], &layers[..], &ids[..1]].concat())
    }

    /// The same scores in runs, and the first of them in a range.
    fn in_runs(self, list: &Path, runs: &Path) -> Result<(), Failure> {
        let edition = ["--edition", "3"].map(Path::new);
        self.step(&[&["write".as_ref(), list, "-o".as_ref(), runs], &edition[..]].concat())?;
        self.step(&["find".as_ref(), runs, "185".as_ref(), "1000".as_ref()])
    }

    /// Few distinct scores that lie far apart, in the edition that suits them best.
    fn few_distinct(self, few: &Path, table: &Path) -> Result<(), Failure> {
        let write = |out: &mut dyn Write| {
            (0..1000).try_for_each(|id| {
                let score = match id % 10 {
                    0 => 1_000_000_007,
                    1 | 2 => -1,
                    3 => 1,
                    _ => 0,
                };
                writeln!(out, "{id} {score}")
            })
        };
        Output::open(few, false, Replaces::Nothing, &[])?.fill(write)?;
        let words = [
            "write".as_ref(),
            few,
            "-o".as_ref(),
            table,
            "--best".as_ref(),
        ];
        self.step(&words)?;
        self.step(&["show".as_ref(), table])
    }

    /// Prints a command line as one would type it, and runs it.
    fn step(self, words: &[&Path]) -> Result<(), Failure> {
        let mut words: Vec<OsString> = words.iter().map(OsString::from).collect();
        if self.json {
            words.push("--json".into());
        }
        let typed: Vec<String> = words
            .iter()
            .map(|word| typed_word(word.as_bytes()))
            .collect();
        match self.json {
            false => print(&format!("\n$ signalfern {}\n", typed.join(" ")))?,
            true => print(&Object::new().texts("command", &typed).line())?,
        }
        crate::run(&words)
    }
}

/// A folder of our own among the temporary files, where others may make folders too.
fn new_folder() -> Result<PathBuf, Failure> {
    let random = RandomState::new().hash_one(std::process::id());
    let folder = std::env::temp_dir().join(format!("signalfern-demo-{random:016x}"));
    match fs::create_dir(&folder) {
        Ok(()) => Ok(folder),
        Err(error) => Err(Failure::file("make", &folder, &error)),
    }
}

/// Pairs in three kinds of block: a few ids, every third, and all.
fn write_scores(out: &mut dyn Write) -> std::io::Result<()> {
    let few = [0_u32, 2, 7, 60_000].into_iter();
    let third = (70_001..120_000).step_by(3);
    let all = 3 << 16..4 << 16;
    for id in few.chain(third).chain(all) {
        let score = 135 + 5 * i64::from(id * 7 % 12);
        writeln!(out, "{id} {score}")?;
    }
    Ok(())
}
