//! Columns read from files: the header first, and the rest only where it can be a column.

use std::cell::OnceCell;
use std::path::Path;

use signalfern::Refusal;

use crate::column::judge_header;
use crate::failure::{complain, Failure};
use crate::header::{Header, LONGEST};
use crate::input::Input;
use crate::memory;
use crate::progress::{Progress, Unit};
use crate::sha256::{self, Digest};
use crate::text::typed;
use crate::witness::Witnesses;

/// Bytes read between two looks at the clock: from a file, and from what may be slow.
const PIECE: u64 = 1 << 22;
const SMALL_PIECE: u64 = 1 << 16;

/// A file as far as it was read.
pub struct Loaded {
    pub name: String,
    pub bytes: Vec<u8>,
    /// The bytes of the whole file, where that is known.
    pub len: Option<u64>,
    /// The refusal, where the first bytes or the length were enough for it.
    refusal: Option<Refusal>,
    digest: OnceCell<Digest>,
    input: Input,
}

impl Loaded {
    /// Opens a file and reads what is needed to judge it.
    pub fn open(path: &Path) -> Result<Self, Failure> {
        let mut loaded = Self::start(path)?;
        loaded.finish()?;
        Ok(loaded)
    }

    /// Opens a file that is to be asked: checked, and with the digest that it must have.
    pub fn sound(path: &Path, given: Option<Digest>) -> Result<Self, Failure> {
        let loaded = Self::open(path)?;
        loaded.checked(given)?;
        Ok(loaded)
    }

    /// The same without the check, and says so.
    pub fn unchecked(path: &Path, given: Option<Digest>) -> Result<Self, Failure> {
        let loaded = Self::open(path)?;
        loaded
            .refusal
            .map_or(Ok(()), |it| Err(loaded.refused(it)))?;
        loaded.confirmed(given, "file")?;
        let warning = "is not checked: if it is damaged, answers may be wrong";
        complain(format!("{} {warning}", loaded.name));
        Ok(loaded)
    }

    /// Opens a file. Nothing is read yet.
    pub fn start(path: &Path) -> Result<Self, Failure> {
        let mut input = Input::open(path)?;
        Ok(Self {
            name: input.name(),
            bytes: Vec::new(),
            len: input.left(),
            refusal: None,
            digest: OnceCell::new(),
            input,
        })
    }

    /// Reads the header; then the rest, if the header and the length are those of a column.
    pub fn finish(&mut self) -> Result<(), Failure> {
        self.read_to(LONGEST as u64)?;
        let total = match (judge_header(&self.bytes), Header::parse(&self.bytes)) {
            (Ok(()) | Err(Refusal::Length), Ok(header)) => header.total(),
            (result, _) => {
                self.refusal = result.err();
                return Ok(());
            }
        };
        let wrong_len = |len| u128::from(len) != total;
        if !self.len.is_some_and(wrong_len) {
            // One byte more, to see whether something follows.
            self.read_to(u64::try_from(total + 1).unwrap_or(u64::MAX))?;
        }
        if wrong_len(self.len.unwrap_or(self.bytes.len() as u64)) {
            self.refusal = Some(Refusal::Length);
        }
        Ok(())
    }

    pub fn input(&self) -> &Input {
        &self.input
    }

    /// The column's count of pairs, or why the library refuses it.
    pub fn check(&self) -> Result<u64, Refusal> {
        match self.refusal {
            Some(refusal) => Err(refusal),
            None => signalfern::check(&self.bytes),
        }
    }

    /// The count of pairs of a column that the check accepts and that has the digest it must have.
    pub fn checked(&self, given: Option<Digest>) -> Result<u64, Failure> {
        let count = self.check().map_err(|refusal| self.refused(refusal))?;
        self.confirmed(given, "column")?;
        Ok(count)
    }

    /// Who confirmed the digest of a file that was read whole. Only those who tell one are asked.
    pub fn confirmed(
        &self,
        given: Option<Digest>,
        what: &'static str,
    ) -> Result<Witnesses, Failure> {
        let witnesses = Witnesses::of(self.path(), given)?;
        if !witnesses.is_empty() {
            let confirmed = witnesses.confirm(self.digest(), what);
            confirmed.map_err(|differs| differs.failure(&self.name))?;
        }
        Ok(witnesses)
    }

    /// The digest of the bytes, which is taken once.
    pub fn digest(&self) -> Digest {
        *self.digest.get_or_init(|| sha256::digest(&self.bytes))
    }

    pub fn path(&self) -> &Path {
        &self.input.path
    }

    fn refused(&self, refusal: Refusal) -> Failure {
        let file = match self.input.is_standard() {
            true => "-".to_string(),
            false => typed(self.path()),
        };
        let hint = format!("{refusal}\nTry `signalfern check {file}`: it tells what is wrong.");
        Failure::refused_as(&self.name, (refusal.number(), refusal.name()), hint)
    }

    /// Reads on until so many bytes are there, or the file ends. Memory grows with what comes, not
    /// with what is asked for.
    pub fn read_to(&mut self, most: u64) -> Result<(), Failure> {
        let most = self.len.map_or(most, |len| len.min(most));
        let label = format!("loading {}", self.name);
        let mut progress = Progress::new(label, Unit::Bytes, self.len.map(|_| most));
        if self.len.is_some() {
            let more = most.saturating_sub(self.bytes.len() as u64);
            memory::reserve(&mut self.bytes, more, &self.name)?;
        }
        let piece = match self.len {
            Some(_) => PIECE,
            None => SMALL_PIECE,
        };
        loop {
            let done = self.bytes.len();
            let piece = most.saturating_sub(done as u64).min(piece) as usize;
            if piece == 0 {
                return Ok(());
            }
            if self.bytes.try_reserve(piece).is_err() {
                return Err(memory::denied(done as u64 + piece as u64, &self.name));
            }
            if self.input.read_more(piece, &mut self.bytes)? < piece {
                self.len = Some(self.bytes.len() as u64);
                return Ok(());
            }
            progress.tell(self.bytes.len() as u64);
        }
    }
}
