//! What is answered to ids that were asked for, as lines: one by one, or a page of them.

use std::io::{self, Write};

use signalfern::{Layer, Refusal};

use crate::column::{Answers, Paged};
use crate::json::Object;
use crate::printing::put;

/// Kinds of a place in a page.
const FOUND: u8 = 0;
const ABSENT: u8 = 1;
/// Bytes gathered before they are handed on, and the longest line.
const PIECE: usize = 1 << 16;
const LONGEST: usize = 160;

/// What is told of one id.
pub struct Told {
    pub id: u32,
    /// Its value and its ordinal.
    pub found: Option<(i64, u64)>,
    /// Which of two columns spoke.
    pub by: Option<Layer>,
    /// What it cost: words and probes, or the words of each of two columns.
    pub costs: Vec<(&'static str, u64)>,
}

impl Told {
    pub fn line(&self, json: bool) -> String {
        if json {
            return self.json().line();
        }
        let by = self
            .by
            .map_or(String::new(), |layer| format!(" by {layer}"));
        let found = match self.found {
            Some((value, ordinal)) => format!("{value}{by} ordinal {ordinal}"),
            None => "absent".to_string(),
        };
        let mut line = format!("{} {found}", self.id);
        if self
            .costs
            .first()
            .is_some_and(|(name, _)| *name == "machine")
        {
            line.push_str(" words");
        }
        for (name, cost) in &self.costs {
            line.push_str(&format!(" {name} {cost}"));
        }
        line + "\n"
    }

    fn json(&self) -> Object {
        let object = named(found_object(self.id, self.found), self.by);
        let costs = self.costs.iter();
        costs.fold(object, |object, (name, cost)| match *name {
            "machine" => object.number("machine_words", *cost),
            "correction" => object.number("correction_words", *cost),
            name => object.number(name, *cost),
        })
    }
}

/// An id and what was found.
fn found_object(id: u32, found: Option<(i64, u64)>) -> Object {
    let object = Object::new().number("id", id);
    match found {
        Some((value, ordinal)) => (object.text("answer", "found"))
            .long("value", value)
            .long("ordinal", ordinal),
        None => object.text("answer", "absent"),
    }
}

/// The same with the column that spoke.
fn named(object: Object, by: Option<Layer>) -> Object {
    match by {
        Some(layer) => object.text("by", &layer.to_string()),
        None => object,
    }
}

/// A page of ids and what is answered to them. Ids that do not ascend are asked for block by block, since the
/// column's bytes then come one after another, and told in the order in which they stand.
#[derive(Default)]
pub struct Page {
    answers: Answers,
    /// The ids block by block, and the index at which each of them stands.
    grouped: Vec<u32>,
    order: Vec<u32>,
    /// Where the next id of each block goes.
    places: Vec<u32>,
    /// Values and ordinals, and kinds and columns, in the order of the ids, if that is another.
    told: Vec<(i64, u64)>,
    kinds: Vec<(u8, u8)>,
    is_grouped: bool,
    /// Whether two columns were asked, of which one spoke.
    is_layered: bool,
    buffer: Vec<u8>,
}

/// Blocks by the upper half of an id, above the limit too.
const BLOCKS: usize = 1 << 16;

impl Page {
    pub fn ask<P: Paged>(&mut self, asked: &P, ids: &[u32]) -> Result<(), Refusal> {
        self.is_layered = P::LAYERED;
        self.is_grouped = !ids.is_sorted();
        if !self.is_grouped {
            return asked.look_up_page(ids, &mut self.answers);
        }
        self.group(ids);
        asked.look_up_page(&self.grouped, &mut self.answers)?;
        self.told.resize(ids.len(), (0, 0));
        self.kinds.resize(ids.len(), (0, 0));
        for (place, &index) in self.order.iter().enumerate() {
            let told = (self.answers.values[place], self.answers.ordinals[place]);
            self.told[index as usize] = told;
            let kind = (self.answers.kinds[place], self.answers.columns[place]);
            self.kinds[index as usize] = kind;
        }
        Ok(())
    }

    /// Sorts the ids by their block, by counting.
    fn group(&mut self, ids: &[u32]) {
        let block = |id: u32| (id >> 16) as usize;
        self.places.clear();
        self.places.resize(BLOCKS, 0);
        for &id in ids {
            self.places[block(id)] += 1;
        }
        let mut before = 0;
        for place in &mut self.places {
            (before, *place) = (before + *place, before);
        }
        self.grouped.resize(ids.len(), 0);
        self.order.resize(ids.len(), 0);
        for (index, &id) in (0..).zip(ids) {
            let place = &mut self.places[block(id)];
            self.grouped[*place as usize] = id;
            self.order[*place as usize] = index;
            *place += 1;
        }
    }

    fn kind(&self, index: usize) -> u8 {
        match self.is_grouped {
            true => self.kinds[index].0,
            false => self.answers.kinds[index],
        }
    }

    /// The column that spoke for the id at this index, where there are two.
    fn by(&self, index: usize) -> Option<Layer> {
        let number = match self.is_grouped {
            true => self.kinds[index].1,
            false => self.answers.columns[index],
        };
        Layer::from_number(number).filter(|_| self.is_layered)
    }

    /// The value and the ordinal of the id at this index, if it was found.
    fn found(&self, index: usize) -> (i64, u64) {
        match self.is_grouped {
            true => self.told[index],
            false => (self.answers.values[index], self.answers.ordinals[index]),
        }
    }

    /// Why the id at this index is refused, and by which column: by an opened one that is ID or BROKEN, which come
    /// without a number.
    pub fn refusal(&self, index: usize) -> (Layer, Refusal) {
        let refusal = Refusal::from_number(self.kind(index).into(), 0);
        let layer = self.by(index).unwrap_or(Layer::Machine);
        (layer, refusal.unwrap_or(Refusal::Broken))
    }

    /// The ordinal of the id at this index, or that it is absent; none where it is refused.
    pub fn ordinal(&self, index: usize) -> Option<Option<u64>> {
        match self.kind(index) {
            FOUND => Some(Some(self.found(index).1)),
            ABSENT => Some(None),
            _ => None,
        }
    }

    /// Prints the answers from an index on, up to one that is refused; gives that one's index.
    pub fn put(
        &mut self,
        out: &mut dyn Write,
        ids: &[u32],
        from: usize,
        json: bool,
    ) -> io::Result<Option<usize>> {
        self.buffer.clear();
        for (index, &id) in ids.iter().enumerate().skip(from) {
            if self.buffer.len() + LONGEST > PIECE {
                out.write_all(&self.buffer)?;
                self.buffer.clear();
            }
            let found = match self.kind(index) {
                FOUND => Some(self.found(index)),
                ABSENT => None,
                _ => {
                    out.write_all(&self.buffer)?;
                    return Ok(Some(index));
                }
            };
            let by = found.and_then(|_| self.by(index));
            match json {
                false => put_found(&mut self.buffer, id, found, by),
                true => {
                    let object = named(found_object(id, found), by);
                    self.buffer.extend(object.line().bytes());
                }
            }
        }
        out.write_all(&self.buffer)?;
        Ok(None)
    }
}

/// Puts the line of an id of a list, or of a pair that was found: its value and its ordinal.
pub fn put_line(buffer: &mut Vec<u8>, id: u32, found: Option<(i64, u64)>) {
    put_found(buffer, id, found, None);
}

/// The same with the column that spoke.
fn put_found(buffer: &mut Vec<u8>, id: u32, found: Option<(i64, u64)>, by: Option<Layer>) {
    put(buffer, id.into());
    let Some((value, ordinal)) = found else {
        buffer.extend_from_slice(b" absent\n");
        return;
    };
    buffer.push(b' ');
    if value < 0 {
        buffer.push(b'-');
    }
    put(buffer, value.unsigned_abs());
    buffer.extend_from_slice(match by {
        None => b"",
        Some(Layer::Machine) => b" by machine",
        Some(Layer::Correction) => b" by correction",
    });
    buffer.extend_from_slice(b" ordinal ");
    put(buffer, ordinal);
    buffer.push(b'\n');
}
