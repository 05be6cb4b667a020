//! Lists of ids as text: an id a line.

use std::path::Path;

use signalfern::MAX_ID;

use crate::causes;
use crate::failure::Failure;
use crate::input::Input;
use crate::lines::{Line, Lines};
use crate::text::{cut, quoted};
use crate::words::{parse_asked, parse_value, Wrong};

/// The digits of an id that surely fits.
const DIGITS: usize = 9;

/// The word of a line that is to be an id, or none if the line is empty or a remark.
pub fn word_of(line: &[u8]) -> Result<Option<&[u8]>, Wrong> {
    let words = line.split(u8::is_ascii_whitespace);
    let mut words = words.filter(|word| !word.is_empty());
    let mut next = || words.next().filter(|word| !word.starts_with(b"#"));
    let Some(id) = next() else {
        return Ok(None);
    };
    let Some(more) = next() else {
        return Ok(Some(id));
    };
    let why = format!("{} is one word too many: a line is an id", quoted(more));
    let pair = parse_asked(id).is_ok() && parse_value(more).is_ok() && next().is_none();
    Err(Wrong::Text(match pair {
        true => format!("{why}, and this looks like a pair: `cut -d ' ' -f 1` leaves the ids"),
        false => why,
    }))
}

/// Ids that are asked for, taken from a text until a line is none.
pub struct Asked {
    lines: Lines,
    name: String,
    number: usize,
    /// Where the lines of an input are answered as they come.
    waits: bool,
    /// Ids met so far.
    met: usize,
    /// Why it goes no further, once the ids before are answered.
    end: Option<Failure>,
}

/// Ids of some lines, and where each of them stands that is above the limit.
#[derive(Default)]
pub struct Batch {
    pub ids: Vec<u32>,
    /// Indexes, ascending, and what is said of the id there.
    pub above: Vec<(usize, String)>,
}

impl Asked {
    /// The ids in a file. `doing` says in the progress what is done with them.
    pub fn open(path: &Path, doing: &str) -> Result<Self, Failure> {
        let input = Input::open(path)?;
        let (name, waits) = (input.name(), !input.is_plain_file());
        let lines = Lines::of(input, doing)?.beside_output();
        Ok(Self {
            lines,
            name,
            number: 0,
            waits,
            met: 0,
            end: None,
        })
    }

    /// Whether the next line may be waited for, so that answers are to be handed on before.
    pub fn waits(&self) -> bool {
        self.waits
    }

    /// Takes up to `most` ids; fewer at the end, before a line that is no id, and where the next line is still to come.
    /// False where there is none any more.
    pub fn batch(&mut self, most: usize, batch: &mut Batch) -> Result<bool, Failure> {
        batch.ids.clear();
        batch.above.clear();
        if let Some(failure) = self.end.take() {
            return Err(failure);
        }
        let ended = self.fill(most, batch);
        match ended {
            Err(failure) if batch.ids.is_empty() => Err(failure),
            Err(failure) => {
                self.end = Some(failure);
                Ok(true)
            }
            Ok(()) => Ok(!batch.ids.is_empty()),
        }
    }

    fn fill(&mut self, most: usize, batch: &mut Batch) -> Result<(), Failure> {
        loop {
            let used = self.take_plain(most, batch);
            self.lines.pass(used);
            let waits = self.waits && !batch.ids.is_empty() && !self.lines.has_line();
            if batch.ids.len() == most || waits {
                return Ok(());
            }
            self.number += 1;
            let place = format!("{}: line {}", self.name, self.number);
            let taken = match self.lines.next()? {
                None => return Ok(()),
                Some(Line::TooLong) => Err((Vec::new(), Wrong::too_long())),
                Some(Line::Bytes(line)) => match asked_in(line) {
                    Ok(asked) => Ok(asked.map(|(word, id)| (cut(word), id))),
                    Err(wrong) => Err((line.to_vec(), wrong)),
                },
            };
            match taken {
                Ok(None) => {}
                Ok(Some((word, id))) => {
                    if id > MAX_ID {
                        let said = format!("{place}: id {word}");
                        batch.above.push((batch.ids.len(), said));
                    }
                    batch.ids.push(id);
                    self.met += 1;
                }
                Err((line, wrong)) => {
                    let (refusal, why) = causes::explain(self.lines.head(), &line, self.met, wrong);
                    return Err(Failure::refused_as(place, refusal, why));
                }
            }
        }
    }

    /// Takes lines of the usual form that are at hand; gives their bytes.
    fn take_plain(&mut self, most: usize, batch: &mut Batch) -> usize {
        let (text, mut used) = (self.lines.at_hand(), 0);
        while batch.ids.len() < most {
            let Some((id, len)) = plain(&text[used..]) else {
                break;
            };
            batch.ids.push(id);
            used += len;
            self.number += 1;
            self.met += 1;
        }
        used
    }
}

fn asked_in(line: &[u8]) -> Result<Option<(&[u8], u32)>, Wrong> {
    match word_of(line)? {
        None => Ok(None),
        Some(word) => Ok(Some((word, parse_asked(word)?))),
    }
}

/// A line of digits, maybe a return, and a line feed: the id, and the line's bytes.
fn plain(text: &[u8]) -> Option<(u32, usize)> {
    let mut id = 0;
    for (len, byte) in text.iter().enumerate().take(DIGITS + 1) {
        match byte {
            b'0'..=b'9' if len < DIGITS => id = 10 * id + u32::from(byte - b'0'),
            b'\n' if len > 0 => return Some((id, len + 1)),
            b'\r' if len > 0 && text.get(len + 1) == Some(&b'\n') => return Some((id, len + 2)),
            _ => return None,
        }
    }
    None
}

#[cfg(test)]
mod tests {
    use super::*;

    #[test]
    fn lines_of_ids() {
        for (text, id) in [("0\n", 0), ("7\r\n", 7), ("999999999\n", 999_999_999)] {
            assert_eq!(plain(text.as_bytes()), Some((id, text.len())));
            let line = text.trim_end_matches('\n').as_bytes();
            assert_eq!(asked_in(line).unwrap().unwrap().1, id);
        }
        for text in [
            "",
            "1",
            "\n",
            "\r\n",
            "1\r",
            "1 \n",
            "1234567890\n",
            "-1\n",
            "x\n",
        ] {
            assert_eq!(plain(text.as_bytes()), None, "{text}");
        }
        assert_eq!(word_of(b" 7 # seven"), Ok(Some(&b"7"[..])));
        assert_eq!(word_of(b"# none"), Ok(None));
        assert!(word_of(b"7 135").is_err() && word_of(b"7 8 9").is_err());
    }
}
