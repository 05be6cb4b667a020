//! read: the pairs of a column as lines, or those of a column with a correction on top.

use std::io;

use signalfern::Layer;

use crate::arguments::Arguments;
use crate::failure::Failure;
use crate::forms::Layout;
use crate::input::Input;
use crate::layers::Layers;
use crate::load::Loaded;
use crate::output::Output;
use crate::printing::Printer;
use crate::progress::{Progress, Unit};
use crate::range::{self, Wanted};
use crate::replaced::Replaces;
use crate::scan::Scan;
use crate::text::quoted;
use crate::words::parse_id;

pub fn run(mut arguments: Arguments) -> Result<(), Failure> {
    let wanted = wanted(&arguments)?;
    let by = arguments.has("by");
    let layout = Layout::of(&arguments, arguments.has("json"))?.with_columns(by);
    let (given, given_correction) = (arguments.digest("digest")?, arguments.correction_digest()?);
    let output = arguments.path("output").unwrap_or_else(|| "-".into());
    let (path, correction) = (arguments.file("column")?, arguments.path("correction"));
    arguments.one_standard([Some(&path), correction.as_ref()].into_iter().flatten())?;
    if by && correction.is_none() {
        return Err(arguments.usage("--by is for a --correction"));
    }
    arguments.finish()?;

    let mut loaded = Loaded::start(&path)?;
    let correction = correction.map(|path| Loaded::start(&path));
    let mut correction = correction.transpose()?;
    let inputs = [Some(&loaded), correction.as_ref()].into_iter().flatten();
    let inputs: Vec<&Input> = inputs.map(Loaded::input).collect();
    let force = arguments.has("force");
    let output = Output::open(&output, force, Replaces::Nothing, &inputs)?;
    loaded.finish()?;
    // Checked before room is made: a damaged header may claim any count.
    let count = loaded.checked(given)?;
    if let Some(correction) = &mut correction {
        correction.finish()?;
        correction.checked(given_correction)?;
    }
    let source = Source::of(&loaded, correction.as_ref())?;
    let is_known = wanted == Wanted::ALL && correction.is_none();
    let progress = Progress::new(
        "printing".to_string(),
        Unit::Pairs,
        is_known.then_some(count),
    );
    let progress = progress.beside(output.is_standard());
    let mut stopped = None;
    let filled = output.fill(|out| {
        out.write_all(layout.start().as_bytes())?;
        // (The longer of the two names.)
        let around = layout.around(Layer::Correction);
        let mut printer = Printer::new(out, progress).around(around);
        match source.print(wanted, &layout, &mut printer)? {
            Ok(()) => printer.finish(),
            Err(failure) => {
                printer.finish()?;
                stopped = Some(failure);
                // No file takes its name.
                Err(io::Error::other("the reading stopped"))
            }
        }
    });
    stopped.map_or(filled, Err)
}

/// What is printed: a column, or one with a correction on top.
enum Source<'a> {
    Column(Scan<'a>),
    Corrected(Layers<'a>),
}

impl<'a> Source<'a> {
    fn of(loaded: &'a Loaded, correction: Option<&'a Loaded>) -> Result<Self, Failure> {
        match correction {
            None => Scan::of(loaded).map(Self::Column),
            Some(correction) => Layers::of(loaded, correction).map(Self::Corrected),
        }
    }

    /// The outer result is that of the output, the inner that of the reading.
    fn print(
        &self,
        wanted: Wanted,
        layout: &Layout,
        printer: &mut Printer,
    ) -> io::Result<Result<(), Failure>> {
        Ok(match self {
            Self::Column(scan) => {
                let printed = range::print(scan, wanted, printer)?;
                printed.map_err(|stop| scan.failure(stop))
            }
            Self::Corrected(layers) => {
                let printed = range::print_layers(layers, wanted, layout, printer)?;
                printed.map_err(|refused| layers.failure(refused))
            }
        })
    }
}

fn wanted(arguments: &Arguments) -> Result<Wanted, Failure> {
    let id = |long: &str, otherwise: u32| match arguments.value(long) {
        None => Ok(otherwise),
        Some(word) => {
            let word = word.as_encoded_bytes();
            let id = parse_id(word).ok().filter(|id| *id <= signalfern::MAX_ID);
            id.ok_or_else(|| {
                let (word, most) = (quoted(word), signalfern::MAX_ID);
                arguments.usage(format!("{word} is no id: a whole number from 0 to {most}"))
            })
        }
    };
    let limit = arguments.number("limit", "count of pairs")?;
    let (from, to) = (id("from", Wanted::ALL.from)?, id("to", Wanted::ALL.to)?);
    if from > to {
        return Err(arguments.usage(format!("--from is above --to: {from} and {to}")));
    }
    Ok(Wanted {
        from,
        to,
        limit: limit.unwrap_or(Wanted::ALL.limit),
    })
}
