//! What was found: counts of each call, the first differences, and what the program conforms as.

use std::fmt::Write;

use super::value::Json;
use crate::json::Object;
use crate::text::escaped;

/// Differences that are shown in full.
const SHOWN: usize = 10;
/// Characters of a line that are shown.
const WIDE: usize = 300;

/// The vectors of one call.
pub struct Call {
    pub class: String,
    pub name: String,
    pub passed: usize,
    pub differ: usize,
    pub unsupported: usize,
    /// Not asked.
    pub left: usize,
}

/// All of them.
#[derive(Default)]
pub struct Report {
    pub calls: Vec<Call>,
    pub differences: usize,
    shown: String,
}

// Writing to a string cannot fail, so the results below are dropped.

impl Report {
    /// A vector that was answered otherwise, or not at all.
    pub fn differs(&mut self, vector: &Json, replied: &str) {
        self.differences += 1;
        if self.differences > SHOWN {
            return;
        }
        let text = |key: &str| vector.get(key).map_or(String::new(), Json::to_string);
        let of = |key: &str| text(key).trim_matches('"').to_string();
        let _ = writeln!(self.shown, "{}: {}", of("name"), of("about"));
        for (what, line) in [
            ("given", text("given")),
            ("expected", text("reply")),
            ("replied", replied.to_string()),
        ] {
            let _ = writeln!(self.shown, "  {what:9} {}", escaped(line.as_bytes(), WIDE));
        }
    }

    /// The whole text; `stopped` says why not all were asked.
    pub fn text(&self, stopped: Option<&str>) -> String {
        let mut out = self.shown.clone();
        if self.differences > SHOWN {
            let more = self.differences - SHOWN;
            let _ = writeln!(out, "and {more} more that differ");
        }
        for call in &self.calls {
            let asked = call.passed + call.differ;
            let _ = match (asked, call.unsupported) {
                (0, 0) => Ok(()),
                (0, _) => writeln!(out, "{:20} not supported", call.name),
                (_, 0) => writeln!(out, "{:20} {} of {asked}", call.name, call.passed),
                (_, left) => {
                    let passed = call.passed;
                    writeln!(
                        out,
                        "{:20} {passed} of {asked}, {left} not supported",
                        call.name
                    )
                }
            };
        }
        if let Some(why) = stopped {
            let _ = writeln!(out, "{why}");
        }
        let _ = writeln!(out, "{}", self.verdict());
        out
    }

    /// An object a call, a line each.
    pub fn lines(&self) -> String {
        let object = |call: &Call| {
            let object = Object::new().text("call", &call.name);
            let object = object.text("class", &call.class);
            let counts = [
                ("passed", call.passed),
                ("differ", call.differ),
                ("unsupported", call.unsupported),
                ("left", call.left),
            ];
            let add = |object: Object, (key, count)| object.number(key, count as u64);
            counts.into_iter().fold(object, add).line()
        };
        self.calls.iter().map(object).collect()
    }

    /// The classes whose every call gave what was expected, and those that did not.
    fn verdict(&self) -> String {
        let mut classes: Vec<&str> = self.calls.iter().map(|it| it.class.as_str()).collect();
        classes.dedup();
        let (mut conforms, mut not) = (Vec::new(), Vec::new());
        for class in classes {
            let of = || self.calls.iter().filter(|it| it.class == class);
            let sum = |count: fn(&Call) -> usize| of().map(count).sum::<usize>();
            let [differ, unsupported, left] = [
                sum(|it| it.differ),
                sum(|it| it.unsupported),
                sum(|it| it.left),
            ];
            match (differ, unsupported, left) {
                (0, 0, 0) => conforms.push(class.to_string()),
                (0, 0, _) => not.push(format!("{class} ({left} not asked)")),
                (0, _, _) => not.push(format!("{class} ({unsupported} not supported)")),
                (_, _, _) => not.push(format!("{class} ({differ} differ)")),
            }
        }
        let list = |names: Vec<String>| match names.is_empty() {
            true => "nothing".to_string(),
            false => names.join(", "),
        };
        match not.is_empty() {
            true => format!("conforms as {}", list(conforms)),
            false => format!("conforms as {}; not as {}", list(conforms), not.join(", ")),
        }
    }
}
