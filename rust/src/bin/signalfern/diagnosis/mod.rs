//! Why a file is refused, for the person who has it. The library's check is the judge; what stands
//! here only explains its verdict, on any bytes, in time that grows with the bytes alone.

mod broken;
mod codes;
mod damage;
mod dense;
mod entries;
mod ids;
mod length;
mod runs;
mod start;
#[cfg(test)]
mod tests;
mod values;

use signalfern::Refusal;

use crate::header::Header;
use crate::load::Loaded;
use crate::text::{counted, typed};

/// An explanation, and what to do next.
pub struct Diagnosis {
    pub lines: Vec<String>,
    pub advice: String,
    pub broken: Option<Broken>,
}

/// Where a header broke, for a program that reads what is told.
pub struct Broken {
    /// "bytes", how many the file has; or "place", that of the bad byte.
    pub key: &'static str,
    pub number: u64,
    /// The header number that the file ends in, or that the byte belongs to.
    pub name: &'static str,
}

/// A place in a file that is not as the writer would give it.
#[derive(Debug, PartialEq, Eq)]
pub struct Finding {
    /// The byte in the file, from 0.
    pub at: u64,
    /// The part of the column.
    pub part: String,
    pub why: String,
}

/// Files up to here are read whole to see whether they are sets.
const SMALL: u64 = 1 << 24;

const COPY_AGAIN: &str =
    "take the file again from where it was written, and compare the two by sha256sum";

impl Diagnosis {
    /// Explains a refusal by the check; may read on in the file.
    pub fn of(loaded: &mut Loaded, refusal: Refusal) -> Self {
        // Where it cannot be read, the first bytes have to do.
        if loaded.len.is_some_and(|len| len <= SMALL) && loaded.read_to(SMALL).is_ok() {
            if let Ok(ids) = signalfern::set_check(&loaded.bytes) {
                let line = format!("this is a set of {}, and no column", counted(ids, "id"));
                let file = typed(loaded.path());
                return Self::new(
                    vec![line],
                    format!("check it as a set: signalfern set check {file}"),
                );
            }
        }
        let worth_reading = match Header::parse(&loaded.bytes) {
            Ok(header) if refusal == Refusal::Length => length::worth_reading(&header),
            _ if refusal != Refusal::Damaged && length::has_returns(&loaded.bytes) => length::MOST,
            _ => 0,
        };
        // Where it cannot be read, the first bytes have to do.
        let _ = loaded.read_to(worth_reading);
        Self::explain(&loaded.bytes, loaded.len, refusal)
    }

    /// The same for the first bytes of a file, or all, and its length if that is known.
    fn explain(bytes: &[u8], len: Option<u64>, refusal: Refusal) -> Self {
        let is_whole = len == Some(bytes.len() as u64);
        let converted = || length::converted_to_text(bytes, is_whole);
        let cause = || converted().or_else(|| start::stranger(bytes));
        match (refusal, Header::parse(bytes)) {
            (Refusal::Length, Ok(header)) => length::explain(&header, bytes, len),
            (Refusal::Damaged, Ok(header)) => damage::explain(&header, bytes),
            (Refusal::Short { bytes: count }, Err(unreadable)) => {
                broken::cut_off(bytes, count, &unreadable).by(cause())
            }
            (Refusal::Number { place }, Err(unreadable)) => {
                broken::bad_byte(bytes, place, &unreadable).by(cause())
            }
            (Refusal::Header, Ok(header)) => {
                converted().unwrap_or_else(|| start::broken_rule(&header))
            }
            (Refusal::Edition, _) => converted().unwrap_or_else(|| start::no_edition(bytes)),
            // Nothing else is refused by the check.
            _ => Self::new(Vec::new(), COPY_AGAIN),
        }
    }

    pub fn new(lines: Vec<String>, advice: impl Into<String>) -> Self {
        Self {
            lines,
            advice: advice.into(),
            broken: None,
        }
    }

    /// The lines, as they stand below a refusal.
    pub fn text(&self) -> String {
        let lines = self.lines.iter().map(|line| format!("  {line}\n"));
        lines.collect::<String>() + &format!("What to do: {}.\n", self.advice)
    }

    /// With a cause, if one is known, and what to do about that.
    fn by(mut self, cause: Option<Self>) -> Self {
        if let Some(cause) = cause {
            self.lines.extend(cause.lines);
            self.advice = cause.advice;
        }
        self
    }
}
