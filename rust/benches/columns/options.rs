//! What `cargo bench --bench columns -- ...` is asked for.

use std::path::PathBuf;

use crate::inputs::LOOK_UPS;
use crate::measure::Times;

/// How much to do. A run is short, so that on a busy machine most of them pass undisturbed.
pub struct Effort {
    pub runs: usize,
    pub pairs: usize,
    pub look_ups: usize,
    pub growth: &'static [usize],
}

const FULL: Effort = Effort {
    runs: 61,
    pairs: 100_000,
    // An odd number of runs, so that in turns both sides get each of them.
    look_ups: 21 * LOOK_UPS,
    growth: &[
        32_000, 65_000, 130_000, 260_000, 520_000, 1_040_000, 2_100_000, 4_200_000, 8_400_000,
    ],
};

/// Only to see that it runs: `cargo test --benches`.
const SMALL: Effort = Effort {
    runs: 1,
    pairs: 70_000,
    look_ups: LOOK_UPS,
    growth: &[32_000, 65_000],
};

/// What the table goes over.
pub enum Rows {
    /// Every call on each kind of block.
    Shapes,
    /// Every call at each width of stored numbers.
    Widths,
    /// The calls on whole columns with large and small divisors.
    Divisors,
    /// Look-ups in blocks of few ids to many.
    Counts,
    /// The next candidate, beside what else gives the same.
    Next,
    /// Pairs from an id on and by their ordinals, beside what else gives the same.
    Walks,
    /// The look-up with a correction on top, a page of them and the reading of both, beside what each is made of.
    Layered,
    /// A page of ids in one call, beside single look-ups and beside the reference's.
    Pages,
    /// Edition 2 beside edition 1, at each width.
    Editions,
    /// Edition 3 beside edition 1, and the search for a value beside a scan.
    Runs,
    /// Edition 4 beside edition 1, and the planner beside the reference's.
    Tables,
    /// Sets on disk: each call, and the bytes of an id.
    Sets,
}

/// What stood on the command line.
pub struct Options {
    pub effort: Effort,
    pub rows: Rows,
    /// Only the measurements of growth, drawn into this file.
    pub plot: Option<PathBuf>,
    /// Where the proved calls' times go.
    pub save: Option<PathBuf>,
    /// Times of another revision, set beside these.
    pub before: Option<Times>,
}

impl Options {
    /// Takes the words after the program's name apart, or says what is wrong with them.
    pub fn read(words: impl Iterator<Item = String>) -> Result<Self, String> {
        let mut options = Self {
            effort: SMALL,
            rows: Rows::Shapes,
            plot: None,
            save: None,
            before: None,
        };
        let mut words = words;
        while let Some(word) = words.next() {
            let mut value = || words.next().ok_or(format!("{word} needs a file"));
            match word.as_str() {
                // `cargo bench` says so; `cargo test` does not.
                "--bench" => options.effort = FULL,
                "--widths" => options.rows = Rows::Widths,
                "--divisors" => options.rows = Rows::Divisors,
                "--counts" => options.rows = Rows::Counts,
                "--next" => options.rows = Rows::Next,
                "--walks" => options.rows = Rows::Walks,
                "--layered" => options.rows = Rows::Layered,
                "--pages" => options.rows = Rows::Pages,
                "--editions" => options.rows = Rows::Editions,
                "--runs" => options.rows = Rows::Runs,
                "--tables" => options.rows = Rows::Tables,
                "--sets" => options.rows = Rows::Sets,
                "--plot" => options.plot = Some(value()?.into()),
                "--save" => options.save = Some(value()?.into()),
                "--beside" => options.before = Some(Times::read(value()?.as_ref())?),
                _ => return Err(format!("there is no option {word}\n{USAGE}")),
            }
        }
        Ok(options)
    }
}

const USAGE: &str = "cargo bench --bench columns -- [--widths | --divisors | --counts | --next | --walks | \
--layered | --pages | --editions | --runs | --tables | --sets | --plot FILE.svg] [--save FILE] [--beside FILE]
  --widths       the calls at each width of stored numbers in place of each kind of block
  --divisors     the calls on values with large and small divisors
  --counts       look-ups alone, in blocks of few ids to many
  --next         the next candidate, beside the look-up, the reading and the reference
  --walks        pairs from an id on and by their ordinals, beside the reading, next and the look-up
  --layered      the look-up with a correction on top, beside the look-ups that it is made of
  --pages        a page of ids in one call, beside look-ups by an opened column and the reference's page
  --editions     the calls on columns of edition 2, beside edition 1's of the same pairs, at each width
  --runs         bytes a pair and the calls of edition 3, beside edition 1; the search for a value, beside a scan
  --tables       bytes a pair and the calls of edition 4, beside edition 1; the planner, beside the reference's
  --sets         bytes an id of sets on disk, beside the id section; writing, check and membership
  --plot FILE    how look-up, check and reading grow with the pairs and with the bytes, drawn
  --save FILE    keep the times; --beside FILE sets such times, of another revision, beside these";
