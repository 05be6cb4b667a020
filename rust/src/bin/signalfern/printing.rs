//! Pairs and ids printed as lines.

use std::io::{self, Write};

use crate::progress::Progress;

/// Bytes gathered before they are handed on.
const PIECE: usize = 1 << 16;
/// The longest pair: an id and a value.
const LONGEST: usize = 10 + 20;

/// Gathers lines and hands them on in large pieces.
pub struct Printer<'a> {
    out: &'a mut dyn Write,
    buffer: Vec<u8>,
    /// What stands before an id, between it and its value, and after that.
    around: [String; 3],
    longest: usize,
    done: u64,
    progress: Progress,
}

impl<'a> Printer<'a> {
    pub fn new(out: &'a mut dyn Write, progress: Progress) -> Self {
        Self {
            out,
            buffer: Vec::with_capacity(PIECE),
            around: ["", " ", "\n"].map(String::from),
            longest: LONGEST + 2,
            done: 0,
            progress,
        }
    }

    /// Pairs in another form.
    pub fn around(self, around: [String; 3]) -> Self {
        Self {
            longest: LONGEST + around.iter().map(String::len).sum::<usize>(),
            around,
            ..self
        }
    }

    pub fn pair(&mut self, id: u32, value: i64) -> io::Result<()> {
        self.begin(id, value)?;
        self.buffer.extend_from_slice(self.around[2].as_bytes());
        Ok(())
    }

    /// A pair with other words after it, no longer than those of the form.
    pub fn pair_with(&mut self, id: u32, value: i64, after: &str) -> io::Result<()> {
        self.begin(id, value)?;
        self.buffer.extend_from_slice(after.as_bytes());
        Ok(())
    }

    #[inline]
    fn begin(&mut self, id: u32, value: i64) -> io::Result<()> {
        if self.buffer.len() + self.longest > PIECE {
            self.hand_on()?;
        }
        let [before, between, _] = &self.around;
        self.buffer.extend_from_slice(before.as_bytes());
        put(&mut self.buffer, u64::from(id));
        self.buffer.extend_from_slice(between.as_bytes());
        if value < 0 {
            self.buffer.push(b'-');
        }
        put(&mut self.buffer, value.unsigned_abs());
        self.done += 1;
        Ok(())
    }

    pub fn id(&mut self, id: u32) -> io::Result<()> {
        if self.buffer.len() + self.longest > PIECE {
            self.hand_on()?;
        }
        put(&mut self.buffer, u64::from(id));
        self.buffer.push(b'\n');
        self.done += 1;
        Ok(())
    }

    /// A line of another form, or some.
    pub fn text(&mut self, text: &str) -> io::Result<()> {
        if self.buffer.len() + text.len() > PIECE {
            self.hand_on()?;
        }
        self.buffer.extend_from_slice(text.as_bytes());
        self.done += 1;
        Ok(())
    }

    /// Hands the last lines on.
    pub fn finish(mut self) -> io::Result<()> {
        self.hand_on()
    }

    fn hand_on(&mut self) -> io::Result<()> {
        self.out.write_all(&self.buffer)?;
        self.buffer.clear();
        self.progress.tell(self.done);
        Ok(())
    }
}

/// Puts a number in decimal digits.
pub fn put(buffer: &mut Vec<u8>, mut number: u64) {
    let mut digits = [0; 20];
    let mut start = digits.len();
    loop {
        start -= 1;
        digits[start] = b'0' + (number % 10) as u8;
        number /= 10;
        if number == 0 {
            break;
        }
    }
    buffer.extend_from_slice(&digits[start..]);
}

#[cfg(test)]
mod tests {
    use super::*;
    use crate::progress::Unit;

    #[test]
    fn lines_are_those_of_std() {
        let mut out = Vec::new();
        let progress = Progress::new(String::new(), Unit::Pairs, None);
        let mut printer = Printer::new(&mut out, progress);
        let mut expected = String::new();
        let values = [0, 9, 10, -1, 12345, i64::MAX, i64::MIN];
        for round in 0..2000 {
            for (id, value) in (round..).step_by(99_991).zip(values) {
                printer.pair(id, value).unwrap();
                expected.push_str(&format!("{id} {value}\n"));
            }
        }
        printer.finish().unwrap();
        assert_eq!(String::from_utf8(out).unwrap(), expected);
    }
}
