//! set find: ids asked for.

use std::io::{self, Write};

use signalfern::{Edition, USUAL_POWER};

use super::read::{blocks, confirmed_ids};
use super::sound;
use crate::answers::Page;
use crate::arguments::Arguments;
use crate::column::{Asked, PAGE};
use crate::failure::{Failure, REFUSED};
use crate::ids::{self, Batch};
use crate::json::Object;
use crate::load::Loaded;
use crate::memory;
use crate::output::print_with;

pub fn run(mut arguments: Arguments) -> Result<(), Failure> {
    let given = arguments.digest("digest")?;
    let path = arguments.file("set")?;
    let words = arguments.ids()?;
    let list = arguments.path("ids");
    if words.is_empty() && list.is_none() {
        return Err(arguments.usage("no id is named"));
    }
    arguments.one_standard([Some(&path), list.as_ref()].into_iter().flatten())?;
    let list = list
        .map(|list| ids::Asked::open(&list, "looking up"))
        .transpose()?;
    let (loaded, count) = sound(&path, given)?;
    let mut finding = Finding {
        loaded: &loaded,
        count,
        json: arguments.has("json"),
        refused: false,
    };
    let mut trouble = None;
    let printed = print_with(|out| {
        for (id, word) in &words {
            finding.one(out, *id, || format!("{}: id {word}", loaded.name))?;
        }
        if let Some(list) = list {
            trouble = finding.list(out, list)?.err();
        }
        Ok(())
    });
    match (printed, trouble) {
        (Ok(()) | Err(Failure::OutputClosed), None) if finding.refused => {
            Err(Failure::Said(REFUSED))
        }
        (Ok(()), Some(failure)) => Err(failure),
        (printed, _) => printed,
    }
}

struct Finding<'a> {
    loaded: &'a Loaded,
    count: u64,
    json: bool,
    /// Whether an id was refused. The others get their answers all the same.
    refused: bool,
}

impl Finding<'_> {
    fn one(&mut self, out: &mut dyn Write, id: u32, at: impl FnOnce() -> String) -> io::Result<()> {
        match signalfern::set_find(&self.loaded.bytes, id) {
            Ok(ordinal) => out.write_all(line(id, ordinal, self.json).as_bytes()),
            Err(refusal) => {
                out.flush()?;
                Failure::refused(at(), refusal).report();
                self.refused = true;
                Ok(())
            }
        }
    }

    /// The ids of a text. The outer result is that of the output, the inner that of the list.
    fn list(
        &mut self,
        out: &mut dyn Write,
        mut list: ids::Asked,
    ) -> io::Result<Result<(), Failure>> {
        // A column of the same ids tells the same of each, and can be asked by pages; a set is walked for each.
        let column = self.column();
        let asked = column.as_ref().and_then(|it| Asked::open(it).ok());
        let (mut batch, mut page) = (Batch::default(), Page::default());
        loop {
            match list.batch(PAGE, &mut batch) {
                Ok(true) => {}
                Ok(false) => return Ok(Ok(())),
                Err(failure) => {
                    out.flush()?;
                    return Ok(Err(failure));
                }
            }
            let mut above = batch.above.iter().peekable();
            let is_asked = asked
                .as_ref()
                .is_some_and(|it| page.ask(it, &batch.ids).is_ok());
            for (index, &id) in batch.ids.iter().enumerate() {
                let said = above.next_if(|(at, _)| *at == index);
                let told = (is_asked && said.is_none()).then(|| page.ordinal(index));
                match told.flatten() {
                    Some(ordinal) => out.write_all(line(id, ordinal, self.json).as_bytes())?,
                    None => {
                        let at = || said.map_or(String::new(), |(_, said)| said.clone());
                        self.one(out, id, at)?;
                    }
                }
            }
            if list.waits() {
                out.flush()?;
            }
        }
    }

    /// A column of the ids with a value of 0 each, where there is memory for it.
    fn column(&self) -> Option<Vec<u8>> {
        memory::available(self.count.saturating_mul(2 * (4 + 8))).then_some(())?;
        let mut all: Vec<u32> = Vec::new();
        memory::reserve(&mut all, self.count, "ids").ok()?;
        for block in blocks(self.loaded).ok()? {
            all.extend(confirmed_ids(&block.ok()?).ok()?);
        }
        let values = memory::zeros(self.count, "values").ok()?;
        signalfern::write_to_vec(&all, &values, Edition::Plain, USUAL_POWER).ok()
    }
}

fn line(id: u32, ordinal: Option<u64>, json: bool) -> String {
    match (json, ordinal) {
        (false, Some(ordinal)) => format!("{id} ordinal {ordinal}\n"),
        (false, None) => format!("{id} absent\n"),
        (true, _) => {
            let object = Object::new().number("id", id);
            match ordinal {
                Some(ordinal) => object.text("answer", "found").long("ordinal", ordinal),
                None => object.text("answer", "absent"),
            }
            .line()
        }
    }
}
