//! Lists of pairs as text: a line `ID VALUE` for each, or in another form.

use std::collections::TryReserveError;

use signalfern::{Refusal, MAX_ID};

use crate::causes;
use crate::failure::Failure;
use crate::forms::{Form, Layout};
use crate::input::Input;
use crate::lines::{Line, Lines};
use crate::memory;
use crate::words::{plain_line, Wrong};

/// The pairs of a text, and which of its lines held none.
#[derive(Debug, Default)]
pub struct Pairs {
    pub ids: Vec<u32>,
    pub values: Vec<i64>,
    pub passed_over: PassedOver,
    /// No byte came.
    pub was_empty: bool,
}

/// Which lines of a text hold its pairs or ids.
#[derive(Debug, Default)]
pub struct PassedOver {
    /// The numbers of the lines that were passed over, ascending.
    lines: Vec<usize>,
    /// Where each stood in the text, if they were sorted or some left out.
    order: Vec<u32>,
}

impl PassedOver {
    pub fn push(&mut self, number: usize) -> Result<(), TryReserveError> {
        memory::push(&mut self.lines, number)
    }

    /// The number of the line that held what has this index.
    pub fn line_of(&self, index: usize) -> usize {
        let index = self.order.get(index).map_or(index, |&at| at as usize);
        let mut line = index + 1;
        for &passed in &self.lines {
            if passed > line {
                break;
            }
            line += 1;
        }
        line
    }

    /// A refusal of ids by the library, with the line and the ids it is about.
    pub fn refused(&self, ids: &[u32], name: &str, refusal: Refusal) -> Failure {
        let code = (refusal.number(), refusal.name());
        let place = |index: usize| format!("{name}: line {}", self.line_of(index));
        match refusal {
            Refusal::Order { index } if index > 0 => {
                let (before, id) = (ids[index - 1], ids[index]);
                let line = self.line_of(index - 1);
                let hint = if id == before {
                    "an id may stand once"
                } else {
                    "sort the lines by id: --sort, or sort -n"
                };
                let sentence = format!("id {id} is not above id {before} of line {line}; {hint}");
                Failure::refused_as(place(index), code, sentence)
            }
            Refusal::Range { index } => {
                let id = ids[index];
                let sentence = format!("id {id} is above the greatest allowed, {MAX_ID}");
                Failure::refused_as(place(index), code, sentence)
            }
            _ => Failure::refused(name, refusal),
        }
    }
}

/// What to do where an id stands several times.
#[derive(Clone, Copy, Debug, PartialEq, Eq)]
pub enum Duplicates {
    First,
    Last,
    Refuse,
}

/// A line that cannot be taken.
pub struct Bad {
    pub line: usize,
    pub refusal: (u64, &'static str),
    pub why: String,
}

impl Pairs {
    /// Reads all lines, up to the first bad one.
    pub fn read(input: Input, layout: &mut Layout) -> Result<Self, Failure> {
        let name = input.name();
        let (pairs, bad) = Self::read_on(input, layout, 1)?;
        match bad.into_iter().next() {
            None => Ok(pairs),
            Some(Bad { line, refusal, why }) => Err(Failure::refused_as(
                format!("{name}: line {line}"),
                refusal,
                why,
            )),
        }
    }

    /// Reads all lines, until so many of them were bad. Those are told.
    pub fn read_on(
        input: Input,
        layout: &mut Layout,
        most: usize,
    ) -> Result<(Self, Vec<Bad>), Failure> {
        let (mut pairs, mut bad) = (Self::default(), Vec::new());
        let mut lines = Lines::of(input, "reading")?;
        let mut number = 0;
        while bad.len() < most {
            if layout.form == Form::Lines {
                let (used, count) = pairs.take_plain(lines.at_hand()).map_err(no_room)?;
                lines.pass(used);
                number += count;
            }
            number += 1;
            let (parsed, is_end) = match lines.next()? {
                None => break,
                Some(Line::TooLong) => (Err((Vec::new(), Wrong::too_long())), true),
                Some(Line::Bytes(line)) => {
                    let parsed = layout.pair(line);
                    (parsed.map_err(|wrong| (line.to_vec(), wrong)), false)
                }
            };
            match parsed {
                Ok(Some((id, value))) => pairs.push(id, value).map_err(no_room)?,
                Ok(None) => pairs.passed_over.push(number).map_err(no_room)?,
                Err((line, wrong)) => {
                    pairs.passed_over.push(number).map_err(no_room)?;
                    let before = pairs.ids.len();
                    let (refusal, why) = causes::explain(lines.head(), &line, before, wrong);
                    bad.push(Bad {
                        line: number,
                        refusal,
                        why,
                    });
                    // What follows such a line cannot be told apart from it.
                    if is_end || layout.is_lost() {
                        break;
                    }
                }
            }
        }
        pairs.was_empty = lines.was_empty();
        Ok((pairs, bad))
    }

    /// Sorts the pairs by id; those with one id stay in their order.
    pub fn sort(&mut self) -> Result<(), Failure> {
        if self.ids.is_sorted() {
            return Ok(());
        }
        let mut order = self.order()?;
        order.sort_unstable_by_key(|&at| (self.ids[at as usize], at));
        self.take_order(order)
    }

    /// Leaves out all but one pair of each id among neighbours; gives how many.
    pub fn leave_out(&mut self, duplicates: Duplicates) -> Result<u64, Failure> {
        if duplicates == Duplicates::Refuse || self.ids.windows(2).all(|pair| pair[0] != pair[1]) {
            return Ok(0);
        }
        let order = self.order()?;
        let same = |at: usize, other: Option<usize>| {
            other.and_then(|other| self.ids.get(other)) == Some(&self.ids[at])
        };
        let is_kept = |&at: &u32| {
            let at = at as usize;
            match duplicates {
                Duplicates::Last => !same(at, Some(at + 1)),
                _ => !same(at, at.checked_sub(1)),
            }
        };
        let before = self.ids.len();
        let kept: Vec<u32> = order.into_iter().filter(is_kept).collect();
        self.take_order(kept)?;
        Ok((before - self.ids.len()) as u64)
    }

    /// Each index, ascending.
    fn order(&self) -> Result<Vec<u32>, Failure> {
        let Ok(count) = u32::try_from(self.ids.len()) else {
            return Err(Failure::Trouble(
                "more than 4294967295 pairs cannot be sorted".to_string(),
            ));
        };
        let mut order = Vec::new();
        memory::reserve(&mut order, count.into(), "their order")?;
        order.extend(0..count);
        Ok(order)
    }

    /// The pairs in this order, which may leave some out.
    fn take_order(&mut self, order: Vec<u32>) -> Result<(), Failure> {
        let count = order.len() as u64;
        let (mut ids, mut values) = (Vec::new(), Vec::new());
        memory::reserve(&mut ids, count, "the sorted ids")?;
        memory::reserve(&mut values, count, "the sorted values")?;
        ids.extend(order.iter().map(|&at| self.ids[at as usize]));
        values.extend(order.iter().map(|&at| self.values[at as usize]));
        (self.ids, self.values) = (ids, values);
        let before = &self.passed_over.order;
        let order = order.into_iter();
        self.passed_over.order = match before.is_empty() {
            true => order.collect(),
            false => order.map(|at| before[at as usize]).collect(),
        };
        Ok(())
    }

    /// The lines whose ids no writer takes, up to so many: out of order, twice, or too great.
    pub fn bad_ids(&self, most: usize) -> Vec<Bad> {
        let indexes = 0..self.ids.len();
        let code = |refusal: Refusal| (refusal.number(), refusal.name());
        let wrong = indexes.filter_map(|index| {
            let (id, line) = (self.ids[index], self.passed_over.line_of(index));
            if id > MAX_ID {
                let why = format!("id {id} is above the greatest allowed, {MAX_ID}");
                let refusal = code(Refusal::Range { index });
                return Some(Bad { line, refusal, why });
            }
            let before = *self.ids.get(index.checked_sub(1)?)?;
            if before < id {
                return None;
            }
            let line_before = self.passed_over.line_of(index - 1);
            let why = format!("id {id} is not above id {before} of line {line_before}");
            let refusal = code(Refusal::Order { index });
            Some(Bad { line, refusal, why })
        });
        wrong.take(most).collect()
    }

    fn push(&mut self, id: u32, value: i64) -> Result<(), TryReserveError> {
        memory::push(&mut self.ids, id)?;
        memory::push(&mut self.values, value)
    }

    /// Takes lines of the usual form from the front, as many as there are; gives the bytes and the
    /// lines taken. What is not of that form, or not wholly at hand, is left to `parse_line`.
    fn take_plain(&mut self, text: &[u8]) -> Result<(usize, usize), TryReserveError> {
        let (mut used, mut count) = (0, 0);
        while let Some((id, value, len)) = plain_line(&text[used..]) {
            self.push(id, value)?;
            used += len;
            count += 1;
        }
        Ok((used, count))
    }
}

pub fn no_room(_: TryReserveError) -> Failure {
    Failure::Trouble("not enough memory for the list".to_string())
}

#[cfg(test)]
mod tests {
    use super::*;

    #[test]
    fn lines_of_pairs() {
        let passed_over = PassedOver {
            lines: vec![1, 2, 5],
            order: Vec::new(),
        };
        let lines: Vec<usize> = (0..3).map(|index| passed_over.line_of(index)).collect();
        assert_eq!(lines, [3, 4, 6]);
    }
}
