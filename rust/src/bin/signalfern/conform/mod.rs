//! conform: another maker's program beside the vectors of `conformance/`.

mod program;
mod report;
mod value;

use std::ffi::OsString;
use std::fs;
use std::path::{Path, PathBuf};
use std::time::Duration;

use crate::arguments::Arguments;
use crate::failure::{Failure, REFUSED};
use crate::output::print;
use crate::text::{named, quoted};
use program::Program;
use report::{Call, Report};
use value::Json;

/// A program that ended, or did not answer in time, is started again so often.
const STARTS: usize = 5;

/// How the vectors are gone through.
struct Run {
    words: Vec<OsString>,
    limit: Duration,
    /// Only this call.
    only: Option<String>,
    /// Stop at the first difference.
    first: bool,
    program: Option<Program>,
    starts: usize,
    /// Why the rest is not asked.
    stopped: Option<&'static str>,
}

pub fn run(mut arguments: Arguments) -> Result<(), Failure> {
    let folder = arguments.path("vectors").unwrap_or("conformance".into());
    let seconds = arguments
        .number("seconds", "count of seconds")?
        .unwrap_or(10);
    let only = arguments
        .value("only")
        .map(|it| it.to_string_lossy().into_owned());
    let first = arguments.has("first");
    let json = arguments.has("json");
    let words: Vec<OsString> = std::iter::from_fn(|| arguments.next()).collect();
    if words.is_empty() {
        return Err(arguments.usage("no program is named"));
    }
    let calls = calls(&folder)?;
    if let Some(only) = &only {
        if !calls.iter().any(|call| call.name == *only) {
            let only = quoted(only);
            return Err(arguments.usage(format!("there are no vectors of a call {only}")));
        }
    }
    let limit = Duration::from_secs(seconds);
    let mut run = Run {
        words,
        limit,
        only,
        first,
        program: None,
        starts: 0,
        stopped: None,
    };
    let report = run.all(&folder, calls)?;
    let nothing = report.calls.iter().all(|call| call.passed == 0);
    print(&match json {
        true => report.lines(),
        false => report.text(run.stopped),
    })?;
    match report.differences > 0 || nothing {
        true => Err(Failure::Said(REFUSED)),
        false => Ok(()),
    }
}

fn text_of(path: &Path) -> Result<String, Failure> {
    fs::read_to_string(path).map_err(|error| Failure::file("read", path, &error))
}

fn json_of(path: &Path, text: &str) -> Result<Json, Failure> {
    let wrong = |it| Failure::Trouble(format!("{}: no JSON: {it}", named(path)));
    Json::parse(text).map_err(wrong)
}

/// The calls, by class, as `numbers.json` has them.
fn calls(folder: &Path) -> Result<Vec<Call>, Failure> {
    let path = folder.join("numbers.json");
    let numbers = json_of(&path, &text_of(&path)?)?;
    let Some(Json::Object(classes)) = numbers.get("classes") else {
        return Err(Failure::Trouble(format!("{}: no classes", named(&path))));
    };
    let mut calls = Vec::new();
    for (class, names) in classes {
        let Json::List(names) = names else { continue };
        for name in names.iter().filter_map(Json::text) {
            calls.push(Call {
                class: class.clone(),
                name: name.to_string(),
                passed: 0,
                differ: 0,
                unsupported: 0,
                left: 0,
            });
        }
    }
    Ok(calls)
}

impl Run {
    /// Every vector of every call.
    fn all(&mut self, folder: &Path, calls: Vec<Call>) -> Result<Report, Failure> {
        let mut report = Report::default();
        for mut call in calls {
            let other = self.only.as_ref().is_some_and(|only| *only != call.name);
            let path: PathBuf = folder.join("vectors").join(format!("{}.jsonl", call.name));
            for line in text_of(&path)?.lines() {
                if other || self.stopped.is_some() {
                    call.left += 1;
                    continue;
                }
                self.one(&json_of(&path, line)?, &mut call, &mut report)?;
                if self.first && report.differences > 0 {
                    self.stopped = Some("stopped at the first difference");
                }
            }
            report.calls.push(call);
        }
        Ok(report)
    }

    /// One vector: asked without its reply, and compared with it.
    fn one(&mut self, vector: &Json, call: &mut Call, report: &mut Report) -> Result<(), Failure> {
        let replied = self.ask(&asked(vector))?;
        let read = replied.as_ref().map(|it| String::from_utf8_lossy(it));
        let reply = read.as_ref().map(|text| Json::parse(text));
        match (reply, vector.get("reply")) {
            (Ok(Ok(reply)), Some(expected)) if reply.says(expected) => call.passed += 1,
            (Ok(Ok(reply)), _) if reply.get("kind").and_then(Json::text) == Some("unsupported") => {
                call.unsupported += 1;
            }
            (_, _) => {
                call.differ += 1;
                let told = match &read {
                    Ok(text) => text.trim_end(),
                    Err(why) => why,
                };
                report.differs(vector, told);
            }
        }
        Ok(())
    }

    /// The program's line to a line of ours; it is started anew where it has ended.
    fn ask(&mut self, line: &str) -> Result<Result<Vec<u8>, String>, Failure> {
        if self.program.is_none() {
            self.starts += 1;
            let started = Program::start(&self.words);
            let path = Path::new(&self.words[0]);
            self.program = Some(started.map_err(|it| Failure::file("run", path, &it))?);
        }
        let Some(program) = &self.program else {
            return Ok(Err("not asked".into()));
        };
        let reply = program.ask(line, self.limit);
        if reply.is_err() {
            self.program = None;
            if self.starts == STARTS {
                self.stopped = Some("stopped: the program ended, or was too slow, five times");
            }
        }
        Ok(reply)
    }
}

/// What the program is told of a vector.
fn asked(vector: &Json) -> String {
    let Json::Object(entries) = vector else {
        return vector.to_string();
    };
    let told = ["name", "call", "given"];
    let told = |(key, _): &&(String, Json)| told.contains(&key.as_str());
    Json::Object(entries.iter().filter(told).cloned().collect()).to_string()
}
