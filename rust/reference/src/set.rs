//! A set on disk (document 02, \[14\]): ids alone, by source 003's choice of blocks.

use crate::header::take_number;
use crate::{in_order_and_range, Refusal, MAX_ID};

/// Places of a block.
const PLACES: usize = 65_536;
/// Ids that a listed block has at most; where fewer are missing, those are listed.
const LISTED: usize = 4096;
/// Bytes of a bitmap: 1024 longs.
const BITMAP: usize = 8192;

/// 0: the ids are listed. 1: the missing ones are. 2: a bitmap.
fn kind_of(count: usize) -> u64 {
    if count <= LISTED {
        0
    } else if PLACES - count < LISTED {
        1
    } else {
        2
    }
}

/// Bytes put one after the other; those past the end are only counted.
struct Sink<'a> {
    out: &'a mut [u8],
    len: usize,
}

impl Sink<'_> {
    fn put(&mut self, byte: u8) {
        if let Some(place) = self.out.get_mut(self.len) {
            *place = byte;
        }
        self.len += 1;
    }

    fn number(&mut self, mut number: usize) {
        while number > 127 {
            self.put(128 | (number & 127) as u8);
            number >>= 7;
        }
        self.put(number as u8);
    }

    fn short(&mut self, place: usize) {
        self.put(place as u8);
        self.put((place >> 8) as u8);
    }

    fn set(&mut self, ids: &[u32]) {
        let blocks = || ids.chunk_by(|a, b| a >> 16 == b >> 16);
        self.number(blocks().count());
        for block in blocks() {
            self.number((block[0] >> 16) as usize);
            self.block(block);
        }
    }

    fn block(&mut self, ids: &[u32]) {
        let places = ids.iter().map(|&id| id as usize % PLACES);
        let kind = kind_of(ids.len());
        self.number(kind as usize);
        match kind {
            0 => {
                self.number(ids.len());
                places.for_each(|place| self.short(place));
            }
            1 => {
                self.number(PLACES - ids.len());
                let mut next = 0;
                for place in places.chain([PLACES]) {
                    (next..place).for_each(|missing| self.short(missing));
                    next = place + 1;
                }
            }
            _ => {
                self.number(0);
                let mut bitmap = [0; BITMAP];
                places.for_each(|place| bitmap[place / 8] |= 1 << (place % 8));
                bitmap.iter().for_each(|&byte| self.put(byte));
            }
        }
    }
}

/// Writes the set of the ids to the front of `out`, and gives its byte count: refusals 3, 4 and 6.
pub fn set_write(ids: &[u32], out: &mut [u8]) -> Result<u64, Refusal> {
    in_order_and_range(ids)?;
    let mut length = Sink {
        out: &mut [],
        len: 0,
    };
    length.set(ids);
    let needed = length.len;
    if out.len() < needed {
        return Err(Refusal::room(needed as u64));
    }
    Sink { out, len: 0 }.set(ids);
    Ok(needed as u64)
}

/// A block whose numbers are within their limits and whose data are right.
struct Block<'a> {
    number: u32,
    kind: u64,
    data: &'a [u8],
}

impl<'a> Block<'a> {
    /// Each number is read, then at once held to its limits; then the data.
    fn take(bytes: &'a [u8], place: &mut usize, least: u64) -> Result<Self, Refusal> {
        let within = |holds: bool| holds.then_some(()).ok_or(Refusal::DAMAGED);
        let number = take_number(bytes, place)?;
        within((least..=32_765).contains(&number))?;
        let kind = take_number(bytes, place)?;
        within(kind <= 2)?;
        let length = take_number(bytes, place)?;
        within(match kind {
            0 => (1..=4096).contains(&length),
            1 => length <= 4095,
            _ => length == 0,
        })?;
        let len = if kind == 2 {
            BITMAP
        } else {
            2 * length as usize
        };
        let data = bytes[*place..].get(..len).ok_or(Refusal::DAMAGED)?;
        *place += len;
        let block = Self {
            number: number as u32,
            kind,
            data,
        };
        within(block.data_are_right())?;
        Ok(block)
    }

    fn shorts(&self) -> impl DoubleEndedIterator<Item = usize> + ExactSizeIterator + 'a {
        let pairs = self.data.chunks_exact(2);
        pairs.map(|pair| usize::from(pair[0]) | usize::from(pair[1]) << 8)
    }

    /// A list ascends, and a bitmap's count is no other kind's.
    fn data_are_right(&self) -> bool {
        match self.kind {
            2 => kind_of(self.count()) == 2,
            _ => self.shorts().zip(self.shorts().skip(1)).all(|(a, b)| a < b),
        }
    }

    fn count(&self) -> usize {
        match self.kind {
            0 => self.data.len() / 2,
            1 => PLACES - self.data.len() / 2,
            _ => self
                .data
                .iter()
                .map(|byte| byte.count_ones() as usize)
                .sum(),
        }
    }

    /// Whether a place is in the block, and how many below it are.
    fn find(&self, place: usize) -> (bool, usize) {
        let listed = || {
            let below = self.shorts().filter(|&it| it < place).count();
            (self.shorts().any(|it| it == place), below)
        };
        match self.kind {
            0 => listed(),
            1 => {
                let (missing, below) = listed();
                (!missing, place - below)
            }
            _ => {
                let bit = |place: usize| self.data[place / 8] >> (place % 8) & 1 == 1;
                (bit(place), (0..place).filter(|&it| bit(it)).count())
            }
        }
    }
}

/// Goes over the blocks; the first fault in byte order decides, left-over bytes last.
fn each_block<'a>(bytes: &'a [u8], mut take: impl FnMut(Block<'a>)) -> Result<(), Refusal> {
    let mut place = 0;
    let blocks = take_number(bytes, &mut place)?;
    if blocks > 32_766 {
        return Err(Refusal::DAMAGED);
    }
    let mut least = 0;
    for _ in 0..blocks {
        let block = Block::take(bytes, &mut place, least)?;
        least = u64::from(block.number) + 1;
        take(block);
    }
    if place < bytes.len() {
        return Err(Refusal::DAMAGED);
    }
    Ok(())
}

/// Whether the bytes are the set of some id list; gives its count of ids.
pub fn set_check(bytes: &[u8]) -> Result<u64, Refusal> {
    let mut count = 0;
    each_block(bytes, |block| count += block.count() as u64)?;
    Ok(count)
}

/// The ordinal of an id, if it is in the set: refusal 14, then as the check.
pub fn set_find(bytes: &[u8], id: u32) -> Result<Option<u64>, Refusal> {
    if id > MAX_ID {
        return Err(Refusal::ID);
    }
    let (mut found, mut below) = (false, 0);
    each_block(bytes, |block| {
        if block.number < id >> 16 {
            below += block.count() as u64;
        } else if block.number == id >> 16 {
            let (here, before) = block.find(id as usize % PLACES);
            found = here;
            below += before as u64;
        }
    })?;
    Ok(found.then_some(below))
}
