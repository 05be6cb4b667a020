//! The blocks of an id section, one after another, as the tool reads them to show or to explain a column; of a
//! damaged one, as far as they make sense. No id and no value that it tells comes from here.

use crate::header::Header;

/// How a block's ids are stored.
#[derive(Clone, Copy, Debug, PartialEq, Eq)]
pub enum Kind {
    Sparse,
    Dense,
    All,
}

impl Kind {
    pub const EACH: [Self; 3] = [Self::Sparse, Self::Dense, Self::All];

    pub fn of(count: u64) -> Self {
        match count {
            0..=4095 => Self::Sparse,
            4096..=65_535 => Self::Dense,
            _ => Self::All,
        }
    }

    pub fn name(self) -> &'static str {
        match self {
            Self::Sparse => "sparse",
            Self::Dense => "dense",
            Self::All => "all",
        }
    }
}

/// The block number of the end block, and the greatest of others.
pub const END_NUMBER: u64 = 32_767;
pub const LAST_NUMBER: u64 = 32_765;
/// The end block.
pub const END: [u8; 6] = [0xFF, 0x7F, 0, 0, 0xFF, 0xFF];
/// Bytes of a block's number and count.
pub const HEAD: u64 = 4;
/// Bytes of a dense block's bitmap.
pub const BITMAP: u64 = 8192;

/// A block: its head, and where it stands.
#[derive(Clone, Copy, Debug, PartialEq, Eq)]
pub struct Block {
    pub number: u64,
    pub count: u64,
    pub kind: Kind,
    /// Where it starts within the id section.
    pub at: u64,
    /// The ids in the blocks before it.
    pub before: u64,
}

impl Block {
    /// The bytes after the head.
    pub fn data(&self, power: u64) -> u64 {
        data_bytes(self.count, power)
    }

    /// Where the next block starts.
    pub fn end(&self, power: u64) -> u64 {
        self.at + HEAD + self.data(power)
    }
}

/// The bytes of a block of so many ids, after its head.
pub fn data_bytes(count: u64, power: u64) -> u64 {
    match Kind::of(count) {
        Kind::Sparse => 2 * count,
        Kind::Dense => rank_bytes(power) + BITMAP,
        Kind::All => 0,
    }
}

/// The bytes of a rank table.
pub fn rank_bytes(power: u64) -> u64 {
    match power {
        7..=15 => 1 << (17 - power),
        _ => 0,
    }
}

/// The id section of a column whose header keeps the rules, as far as its bytes are there.
#[derive(Clone, Copy)]
pub struct Section<'a> {
    pub power: u64,
    /// Blocks and end block.
    pub blocks: &'a [u8],
    /// Jump entries.
    pub jumps: &'a [u8],
    /// Where the section starts in the file.
    pub start: u64,
}

impl<'a> Section<'a> {
    pub fn of(header: &Header, bytes: &'a [u8]) -> Self {
        let part = |from: u128, to: u128| {
            let len = bytes.len() as u128;
            &bytes[from.min(len) as usize..to.min(len) as usize]
        };
        let start = header.len() as u128;
        let end = start + u128::from(header.id_bytes);
        let jumps = end.saturating_sub(8 * u128::from(header.jump_count));
        Self {
            power: header.power,
            blocks: part(start, jumps.max(start)),
            jumps: part(jumps.max(start), end),
            start: start as u64,
        }
    }

    /// The short at a place, if it is there.
    pub fn short(&self, at: u64) -> Option<u64> {
        let at = usize::try_from(at).ok()?;
        let bytes = self.blocks.get(at..at.checked_add(2)?)?;
        Some(u64::from(u16::from_le_bytes([bytes[0], bytes[1]])))
    }

    /// The head of the block at a place, or of the end block.
    pub fn head(&self, at: u64, before: u64) -> Option<Block> {
        let number = self.short(at)?;
        let count = self.short(at + 2)? + 1;
        let kind = Kind::of(count);
        Some(Block {
            number,
            count,
            kind,
            at,
            before,
        })
    }

    /// The data of a block, if they are all there.
    pub fn data(&self, block: &Block) -> Option<&'a [u8]> {
        let from = usize::try_from(block.at + HEAD).ok()?;
        let to = usize::try_from(block.end(self.power)).ok()?;
        self.blocks.get(from..to)
    }

    /// The blocks before the end block, in order. Ends before what cannot be a block.
    pub fn walk(self) -> impl Iterator<Item = Block> + use<'a> {
        let mut next = Some((0, 0, 0));
        std::iter::from_fn(move || {
            let (at, before, least) = next.take()?;
            let block = self.head(at, before)?;
            let fits = (least..=LAST_NUMBER).contains(&block.number);
            if !fits || self.data(&block).is_none() {
                return None;
            }
            next = Some((
                block.end(self.power),
                before + block.count,
                block.number + 1,
            ));
            Some(block)
        })
    }

    /// A jump entry: the ids before the block, and where it starts.
    pub fn jump(&self, index: u64) -> Option<(u64, u64)> {
        let at = usize::try_from(index).ok()?.checked_mul(8)?;
        let entry = self.jumps.get(at..at + 8)?;
        let int = |at: usize| {
            let bytes = [entry[at], entry[at + 1], entry[at + 2], entry[at + 3]];
            u64::from(u32::from_le_bytes(bytes))
        };
        Some((int(0), int(4)))
    }
}

/// Eight bytes as a long, low byte first.
pub fn long(bytes: &[u8]) -> u64 {
    let mut word = [0; 8];
    word.copy_from_slice(bytes);
    u64::from_le_bytes(word)
}
