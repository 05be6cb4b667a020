//! A text taken line by line, in little memory.

use crate::failure::{complain, Failure};
use crate::input::Input;
use crate::memory;
use crate::progress::{Progress, Unit};
use crate::sha256::Hasher;
use crate::witness::Witnesses;

/// The longest line, in bytes.
pub const LONGEST: usize = 1 << 16;
/// Bytes that are read at once: more than one line always fits.
const BUFFER: usize = 1 << 18;
/// What some programs put before UTF-8 text.
const BYTE_ORDER_MARK: &[u8] = b"\xEF\xBB\xBF";

/// First bytes that are kept.
const HEAD: usize = 128;

/// The lines of an input.
pub struct Lines {
    input: Input,
    buffer: Vec<u8>,
    /// The part of the buffer that is not handed out yet.
    start: usize,
    end: usize,
    at_end: bool,
    /// Bytes read so far.
    done: u64,
    /// The first bytes, which tell files of other kinds.
    head: Vec<u8>,
    /// Whether a byte order mark was passed over.
    marked: bool,
    progress: Progress,
}

/// A line without its end, or one that is too long.
pub enum Line<'a> {
    Bytes(&'a [u8]),
    TooLong,
}

impl Lines {
    /// `doing` says in the progress what is done with them.
    pub fn of(mut input: Input, doing: &str) -> Result<Self, Failure> {
        let total = input.left();
        let label = format!("{doing} {}", input.name());
        verified(&mut input)?;
        Ok(Self {
            progress: Progress::new(label, Unit::Bytes, total),
            buffer: memory::zeros(BUFFER as u64, "a buffer")?,
            input,
            start: 0,
            end: 0,
            at_end: false,
            done: 0,
            head: Vec::new(),
            marked: false,
        })
    }

    /// Silent about the progress where what is made of them is printed to a terminal.
    pub fn beside_output(self) -> Self {
        Self {
            progress: self.progress.beside(true),
            ..self
        }
    }

    /// The first bytes of the input, after the first line was asked for.
    pub fn head(&self) -> &[u8] {
        &self.head
    }

    /// Whether the input had no byte at all. To be asked at the end.
    pub fn was_empty(&self) -> bool {
        self.done == 0
    }

    /// Whether the next line is at hand, so that it is not waited for.
    pub fn has_line(&self) -> bool {
        self.at_end || self.at_hand().contains(&b'\n')
    }

    /// What is at hand: whole lines, the last maybe not. `pass` tells how much of it was used.
    pub fn at_hand(&self) -> &[u8] {
        &self.buffer[self.start..self.end]
    }

    pub fn pass(&mut self, bytes: usize) {
        self.start += bytes;
    }

    /// The next line.
    pub fn next(&mut self) -> Result<Option<Line<'_>>, Failure> {
        let mut searched = 0;
        loop {
            let at_hand = &self.buffer[self.start..self.end];
            let limit = at_hand.len().min(LONGEST + 1);
            let found = at_hand[searched.min(limit)..limit]
                .iter()
                .position(|&byte| byte == b'\n')
                .map(|at| at + searched);
            let start = self.start;
            if let Some(len) = found {
                self.start += len + 1;
                return Ok(Some(Line::Bytes(&self.buffer[start..start + len])));
            }
            if limit > LONGEST {
                return Ok(Some(Line::TooLong));
            }
            if self.at_end {
                self.start = self.end;
                let line = &self.buffer[start..self.end];
                return Ok((!line.is_empty()).then_some(Line::Bytes(line)));
            }
            searched = limit;
            self.more()?;
        }
    }

    /// Passes over a byte order mark before the first line, as soon as it is there whole.
    fn pass_mark(&mut self) {
        let is_first = self.done == self.end as u64 && !self.marked;
        if is_first && self.buffer[..self.end].starts_with(BYTE_ORDER_MARK) {
            self.marked = true;
            self.start = BYTE_ORDER_MARK.len();
        }
    }

    /// Reads on, behind what is at hand.
    fn more(&mut self) -> Result<(), Failure> {
        self.buffer.copy_within(self.start..self.end, 0);
        self.end -= self.start;
        self.start = 0;
        let len = self.input.read(&mut self.buffer[self.end..])?;
        if self.head.len() < HEAD {
            let part = &self.buffer[self.end..self.end + len];
            self.head.extend(part.iter().take(HEAD - self.head.len()));
        }
        self.end += len;
        self.done += len as u64;
        self.at_end = len == 0;
        self.pass_mark();
        self.progress.tell(self.done);
        Ok(())
    }
}

/// A text beside which a sidecar stands is read once before, and refused if it is another.
fn verified(input: &mut Input) -> Result<(), Failure> {
    let witnesses = Witnesses::of(&input.path, None)?;
    if witnesses.is_empty() {
        return Ok(());
    }
    if !input.is_plain_file() {
        let name = input.name();
        complain(format!(
            "{name} cannot be read twice: its digest is not compared"
        ));
        return Ok(());
    }
    let mut hasher = Hasher::new();
    let mut buffer = memory::zeros(BUFFER as u64, "a buffer")?;
    loop {
        let len = input.read(&mut buffer)?;
        if len == 0 {
            break;
        }
        hasher.take(&buffer[..len]);
    }
    input.rewind()?;
    let confirmed = witnesses.confirm(hasher.digest(), "text");
    confirmed.map_err(|differs| differs.failure(&input.name()))
}
