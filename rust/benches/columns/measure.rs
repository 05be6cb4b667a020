//! Times, medians and tables.

use std::collections::BTreeMap;
use std::fmt::Write;
use std::hint::black_box;
use std::path::Path;
use std::time::Instant;

/// The median times of one run, in nanoseconds.
#[derive(Clone, Copy)]
pub struct Measured {
    pub proved: f64,
    pub other: f64,
}

impl Measured {
    /// Runs both in turns on the same state, after one run each that is not measured.
    pub fn of<S>(
        runs: usize,
        state: &mut S,
        mut proved: impl FnMut(&mut S) -> u64,
        mut other: impl FnMut(&mut S) -> u64,
    ) -> Self {
        black_box((proved(state), other(state)));
        let mut times = (Vec::new(), Vec::new());
        for _ in 0..runs {
            times.0.push(time(|| proved(state)));
            times.1.push(time(|| other(state)));
        }
        Self {
            proved: median(times.0),
            other: median(times.1),
        }
    }
}

fn time(mut work: impl FnMut() -> u64) -> f64 {
    let begun = Instant::now();
    black_box(work());
    begun.elapsed().as_nanos() as f64
}

fn median(mut times: Vec<f64>) -> f64 {
    times.sort_by(f64::total_cmp);
    times[times.len() / 2]
}

/// The proved calls' times of a whole run, by column and call, in nanoseconds for each unit.
#[derive(Default)]
pub struct Times(BTreeMap<String, f64>);

impl Times {
    /// Reads what [`Times::text`] gave.
    pub fn read(path: &Path) -> Result<Self, String> {
        let wrong = |what: &str| format!("{}: {what}", path.display());
        let text = std::fs::read_to_string(path).map_err(|error| wrong(&error.to_string()))?;
        let line = |line: &str| {
            let (time, name) = line.split_once(' ')?;
            Some((name.to_string(), time.parse().ok()?))
        };
        let rows: Option<_> = text.lines().map(line).collect();
        rows.map(Self).ok_or(wrong("no times of this benchmark"))
    }

    /// A line for each time.
    pub fn text(&self) -> String {
        self.0.iter().fold(String::new(), |mut text, (name, time)| {
            let _ = writeln!(text, "{time} {name}");
            text
        })
    }
}

/// A table in Markdown.
pub struct Table {
    first: &'static str,
    other: &'static str,
    rows: Vec<Row>,
}

struct Row {
    name: String,
    what: String,
    unit: &'static str,
    each: Measured,
}

impl Table {
    /// `first` heads the first column, and `other` names what the proved calls stand beside.
    pub fn new(first: &'static str, other: &'static str) -> Self {
        Self {
            first,
            other,
            rows: Vec::new(),
        }
    }

    /// A row: times for each of `count` units.
    pub fn add(&mut self, name: &str, what: &str, unit: &'static str, count: usize, run: Measured) {
        let each = Measured {
            proved: run.proved / count as f64,
            other: run.other / count as f64,
        };
        let (name, what) = (name.to_string(), what.to_string());
        self.rows.push(Row {
            name,
            what,
            unit,
            each,
        });
    }

    /// Prints the table, and how many rows are behind. With times of another revision it has two
    /// columns more.
    pub fn print(&self, before: Option<&Times>) {
        let more = before.map_or("", |_| " before, ns | proved / before |");
        let (first, other) = (self.first, self.other);
        println!(
            "| {first} | call | for each | proved, ns | {other}, ns | proved / {other} |{more}"
        );
        let more = before.map_or("", |_| "---:|---:|");
        println!("|---|---|---|---:|---:|---:|{more}");
        for row in &self.rows {
            let Measured { proved, other } = row.each;
            let ratio = proved / other;
            let mut more = String::new();
            if let Some(time) = before.map(|times| times.0.get(&row.key()).copied()) {
                let time = time.unwrap_or(f64::NAN);
                let _ = write!(more, " {time:.2} | {:.2} |", proved / time);
            }
            let Row {
                name, what, unit, ..
            } = row;
            println!("| {name} | {what} | {unit} | {proved:.2} | {other:.2} | {ratio:.2} |{more}");
        }
        let ratio = |row: &&Row| row.each.proved / row.each.other;
        let above = |limit: f64| self.rows.iter().filter(|row| ratio(row) > limit).count();
        let rows = self.rows.len();
        println!(
            "\nOf {rows} lines, {} are above 1.1 and {} above 1.5 of the {other}.",
            above(1.1),
            above(1.5)
        );
    }

    /// Adds the proved calls' times to those of the run.
    pub fn keep(&self, times: &mut Times) {
        let rows = self.rows.iter();
        times.0.extend(rows.map(|row| (row.key(), row.each.proved)));
    }
}

impl Row {
    fn key(&self) -> String {
        format!("{}, {}", self.name, self.what)
    }
}

/// The processor, as the system names it.
pub fn machine() -> String {
    let about = std::fs::read_to_string("/proc/cpuinfo").unwrap_or_default();
    let model = about
        .lines()
        .find_map(|line| line.strip_prefix("model name"));
    let model = model.map_or("unknown", |line| line.trim_start_matches([' ', '\t', ':']));
    format!("Processor: {model}.")
}
