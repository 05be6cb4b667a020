//! look-up: single ids asked for, and those of a file page by page.

use std::io::{self, Write};
use std::path::Path;

use signalfern::{Answer, Layer, LayeredAnswer, Refusal};

use crate::answers::{Page, Told};
use crate::arguments::Arguments;
use crate::column::{Asked, Corrected, PAGE};
use crate::failure::{Failure, REFUSED};
use crate::ids::{self, Batch};
use crate::load::Loaded;
use crate::output::print_with;
use crate::sha256::Digest;

pub fn run(mut arguments: Arguments) -> Result<(), Failure> {
    let path = arguments.file("column")?;
    let words = arguments.ids()?;
    let (correction, list) = (arguments.path("correction"), arguments.path("ids"));
    if words.is_empty() && list.is_none() {
        return Err(arguments.usage("no id is named"));
    }
    let files = [Some(&path), correction.as_ref(), list.as_ref()];
    arguments.one_standard(files.into_iter().flatten())?;
    let (given, given_correction) = (arguments.digest("digest")?, arguments.correction_digest()?);
    let list = list.map(|list| ids::Asked::open(&list, "looking up"));
    let list = list.transpose()?;

    let load = |path: &Path, given: Option<Digest>| match arguments.has("unchecked") {
        true => Loaded::unchecked(path, given),
        false => Loaded::sound(path, given),
    };
    let loaded = load(&path, given)?;
    let correction = correction.map(|path| load(&path, given_correction));
    let correction = correction.transpose()?;
    let asked = Asked::of(&loaded)?;
    let source = match &correction {
        None => Source::Column(asked),
        Some(correction) => Source::Corrected(asked.under(&Asked::of(correction)?)),
    };
    let mut asking = Asking {
        source,
        name: &loaded.name,
        correction: correction.as_ref().map_or("", |it| &it.name),
        json: arguments.has("json"),
        refused: false,
    };
    match asking.all(&words, list) {
        // Whoever reads no further may still ask for the status.
        Ok(()) | Err(Failure::OutputClosed) if asking.refused => Err(Failure::Said(REFUSED)),
        result => result,
    }
}

/// What is told of an id, or the column that refused and why.
type Outcome = Result<Told, (Layer, Refusal)>;

/// What is asked: a column, or one with a correction on top.
enum Source<'a> {
    Column(Asked<'a>),
    Corrected(Corrected<'a>),
}

impl Source<'_> {
    fn one(&self, id: u32) -> Outcome {
        match self {
            Self::Column(asked) => match asked.look_up(id) {
                Ok(answer) => Ok(single(id, answer)),
                Err(refusal) => Err((Layer::Machine, refusal)),
            },
            Self::Corrected(layers) => match layers.look_up(id) {
                Ok(answer) => Ok(corrected(id, answer)),
                Err(refused) => Err((refused.layer, refused.refusal)),
            },
        }
    }
}

struct Asking<'a> {
    source: Source<'a>,
    name: &'a str,
    correction: &'a str,
    json: bool,
    /// Whether an id was refused. The others get their answers all the same.
    refused: bool,
}

impl Asking<'_> {
    fn all(&mut self, words: &[(u32, String)], list: Option<ids::Asked>) -> Result<(), Failure> {
        let mut trouble = None;
        print_with(|out| {
            for (id, word) in words {
                let at = format!("{}: id {word}", self.name);
                self.one(out, *id, Some(&at))?;
            }
            if let Some(list) = list {
                trouble = self.list(out, list)?.err();
            }
            Ok(())
        })?;
        trouble.map_or(Ok(()), Err)
    }

    /// The ids of a text. The outer result is that of the output, the inner that of the list.
    fn list(
        &mut self,
        out: &mut dyn Write,
        mut list: ids::Asked,
    ) -> io::Result<Result<(), Failure>> {
        let (mut batch, mut page) = (Batch::default(), Page::default());
        loop {
            match list.batch(PAGE, &mut batch) {
                Ok(true) => {}
                Ok(false) => return Ok(Ok(())),
                Err(failure) => {
                    // After what is said of the ids before it.
                    out.flush()?;
                    return Ok(Err(failure));
                }
            }
            self.batch(out, &batch, &mut page)?;
            if list.waits() {
                out.flush()?;
            }
        }
    }

    fn batch(&mut self, out: &mut dyn Write, batch: &Batch, page: &mut Page) -> io::Result<()> {
        let mut above = batch.above.iter().peekable();
        // By opened columns an id is refused by itself, and never the page.
        let asked = match &self.source {
            Source::Column(asked) => page.ask(asked, &batch.ids),
            Source::Corrected(layers) => page.ask(layers, &batch.ids),
        };
        asked.map_err(|refusal| io::Error::other(refusal.to_string()))?;
        let mut from = 0;
        while let Some(index) = page.put(out, &batch.ids, from, self.json)? {
            let said = above.next_if(|(at, _)| *at == index);
            let (layer, refusal) = page.refusal(index);
            out.flush()?;
            let said = said.map(|(_, it)| it.as_str());
            self.refuse(batch.ids[index], layer, refusal, said);
            from = index + 1;
        }
        Ok(())
    }

    /// Asks for one id. `at` is what is said of one that is above the limit.
    fn one(&mut self, out: &mut dyn Write, id: u32, at: Option<&str>) -> io::Result<()> {
        match self.source.one(id) {
            Ok(told) => out.write_all(told.line(self.json).as_bytes()),
            Err((layer, refusal)) => {
                out.flush()?;
                self.refuse(id, layer, refusal, at);
                Ok(())
            }
        }
    }

    fn refuse(&mut self, id: u32, layer: Layer, refusal: Refusal, at: Option<&str>) {
        let what = match (layer, at) {
            (_, Some(at)) if refusal == Refusal::Id => at.to_string(),
            (Layer::Machine, _) => format!("{}: id {id}", self.name),
            (Layer::Correction, _) => format!("{}: id {id}", self.correction),
        };
        Failure::refused(what, refusal).report();
        self.refused = true;
    }
}

fn single(id: u32, answer: Answer) -> Told {
    let costs = vec![("words", answer.words()), ("probes", answer.probes())];
    let found = match answer {
        Answer::Found { ordinal, value, .. } => Some((value, ordinal)),
        Answer::Absent { .. } => None,
    };
    Told {
        id,
        found,
        by: None,
        costs,
    }
}

fn corrected(id: u32, answer: LayeredAnswer) -> Told {
    let costs = vec![
        ("machine", answer.words(Layer::Machine)),
        ("correction", answer.words(Layer::Correction)),
    ];
    let (found, by) = match answer {
        LayeredAnswer::Found {
            layer,
            ordinal,
            value,
            ..
        } => (Some((value, ordinal)), Some(layer)),
        LayeredAnswer::Absent { .. } => (None, None),
    };
    Told {
        id,
        found,
        by,
        costs,
    }
}
