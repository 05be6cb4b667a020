//! The blocks of a set one after another, as the tool reads them to print or to explain a set. What is refused, the
//! library decides; what is printed, its writer confirms.

use crate::blocks::{long, LAST_NUMBER};
use crate::diagnosis::Finding;
use crate::header::number;
use crate::text::counted;

/// The greatest count of blocks.
const MOST_BLOCKS: u64 = LAST_NUMBER + 1;
/// Bytes of a bitmap.
const BITMAP: usize = 8192;
/// The longest set: a number of blocks, and for each its number, its kind, a length of 4096 and as many places.
pub const LONGEST: u64 = 3 + MOST_BLOCKS * LONGEST_BLOCK;
const LONGEST_BLOCK: u64 = 3 + 1 + 2 + 2 * 4096;

/// A block of a set.
#[derive(Clone, Copy)]
pub struct Block<'a> {
    pub number: u64,
    pub kind: u64,
    /// All its bytes, with its numbers.
    pub bytes: &'a [u8],
    data: &'a [u8],
}

impl Block<'_> {
    /// Its ids, ascending.
    pub fn ids(&self) -> Vec<u32> {
        let first = (self.number as u32) << 16;
        let shorts = self.data.chunks_exact(2);
        let mut listed = shorts.map(|pair| u32::from(u16::from_le_bytes([pair[0], pair[1]])));
        match self.kind {
            0 => listed.map(|place| first | place).collect(),
            1 => {
                let mut missing = listed.next();
                let is_there = |place: &u32| match missing == Some(*place) {
                    true => {
                        missing = listed.next();
                        false
                    }
                    false => true,
                };
                let places = (0..1 << 16).filter(is_there);
                places.map(|place| first | place).collect()
            }
            _ => {
                let longs = (0..).zip(self.data.chunks_exact(8));
                let bit = |place: u32, word: u64| (word >> (place % 64) & 1 == 1).then_some(place);
                let places = longs.flat_map(|(index, bytes): (u32, &[u8])| {
                    let word = long(bytes);
                    (64 * index..64 * index + 64).filter_map(move |place| bit(place, word))
                });
                places.map(|place| first | place).collect()
            }
        }
    }
}

/// The blocks of a set in order, up to the first that cannot be one.
pub struct Blocks<'a> {
    bytes: &'a [u8],
    at: usize,
    index: u64,
    count: u64,
    last: Option<u64>,
}

fn finding(at: usize, part: impl Into<String>, why: String) -> Finding {
    Finding {
        at: at as u64,
        part: part.into(),
        why,
    }
}

impl<'a> Blocks<'a> {
    pub fn of(bytes: &'a [u8]) -> Result<Self, Finding> {
        let (count, at) = number_at(bytes, 0, "the number of blocks")?;
        if count > MOST_BLOCKS {
            let why = format!("{count}, and there are at most {MOST_BLOCKS}");
            return Err(finding(0, "the number of blocks", why));
        }
        Ok(Self {
            bytes,
            at,
            index: 0,
            count,
            last: None,
        })
    }

    /// The first wrong place of a file of `total` bytes, if there is one in these: all of them, or the first.
    pub fn first_fault(bytes: &'a [u8], total: u64) -> Option<Finding> {
        let is_whole = bytes.len() as u64 == total;
        // Where a block or its numbers end behind the first bytes, nothing can be said of it.
        let is_sure = |found: &Finding| is_whole || found.at + LONGEST_BLOCK <= bytes.len() as u64;
        Self::fault(bytes, total).filter(is_sure)
    }

    fn fault(bytes: &'a [u8], total: u64) -> Option<Finding> {
        let mut blocks = match Self::of(bytes) {
            Ok(blocks) => blocks,
            Err(finding) => return Some(finding),
        };
        if let Some(finding) = blocks.by_ref().find_map(Result::err) {
            return Some(finding);
        }
        let left = total - blocks.at as u64;
        let (blocks_told, left_told) = (counted(blocks.count, "block"), counted(left, "byte"));
        let why = format!("the set ends here, after {blocks_told}, and {left_told} follow");
        (left > 0).then(|| finding(blocks.at, "after the last block", why))
    }

    fn block(&mut self) -> Result<Block<'a>, Finding> {
        let (start, index) = (self.at, self.index);
        let part = |what: &str| format!("{what} of block {} of {}", index + 1, self.count);
        let (number, at) = number_at(self.bytes, start, &part("the number"))?;
        if self.last.is_some_and(|last| number <= last) || number > LAST_NUMBER {
            let why = match self.last {
                Some(last) if number <= last => format!("{number} after block {last}"),
                _ => format!("{number}, and {LAST_NUMBER} is the greatest"),
            };
            return Err(finding(start, part("the number"), why));
        }
        let (kind, list_at) = number_at(self.bytes, at, &part("the kind"))?;
        if kind > 2 {
            let why = format!("{kind}, and there are 0, 1 and 2");
            return Err(finding(at, part("the kind"), why));
        }
        let (len, data_at) = number_at(self.bytes, list_at, &part("the list's length"))?;
        let (least, most) = [(1, 4096), (0, 4095), (0, 0)][kind as usize];
        if !(least..=most).contains(&len) {
            let why = format!("{len}, and of kind {kind} it is {least} to {most}");
            return Err(finding(list_at, part("the list's length"), why));
        }
        let bytes = if kind == 2 { BITMAP } else { 2 * len as usize };
        let Some(data) = self.bytes.get(data_at..data_at + bytes) else {
            let left = self.bytes.len() - data_at;
            let why = format!("{bytes} bytes, and {left} are left: it is cut off");
            return Err(finding(data_at, part("the data"), why));
        };
        let block = Block {
            number,
            kind,
            bytes: &self.bytes[start..data_at + bytes],
            data,
        };
        block.sound(data_at, &part("the data"))?;
        (self.at, self.index, self.last) = (data_at + bytes, index + 1, Some(number));
        Ok(block)
    }
}

impl Block<'_> {
    /// Whether its list ascends, or its bitmap has as many ones as one has.
    fn sound(&self, at: usize, part: &str) -> Result<(), Finding> {
        if self.kind == 2 {
            let ones: u32 = (self.data.chunks_exact(8))
                .map(|bytes| long(bytes).count_ones())
                .sum();
            return match ones {
                4097..=61_440 => Ok(()),
                _ => {
                    let why = format!("a bitmap of {ones} ones, and it has 4097 to 61440");
                    Err(finding(at, part, why))
                }
            };
        }
        let short = |pair: &[u8]| u16::from_le_bytes([pair[0], pair[1]]);
        let mut pairs = (0..).zip(self.data.windows(4).step_by(2));
        let fallen = pairs.find(|(_, four)| short(&four[..2]) >= short(&four[2..]));
        match fallen {
            None => Ok(()),
            Some((index, four)) => {
                let (before, after) = (short(&four[..2]), short(&four[2..]));
                let why = format!("{before} and {after}, neighbours in its list, do not ascend");
                Err(finding(at + 2 * index, part, why))
            }
        }
    }
}

impl<'a> Iterator for Blocks<'a> {
    type Item = Result<Block<'a>, Finding>;

    fn next(&mut self) -> Option<Self::Item> {
        if self.index == self.count {
            return None;
        }
        let block = self.block();
        if block.is_err() {
            self.count = self.index;
        }
        Some(block)
    }
}

/// The number at a place, and where the next one starts.
fn number_at(bytes: &[u8], at: usize, part: &str) -> Result<(u64, usize), Finding> {
    match number(&bytes[at..]) {
        Some((number, len)) => Ok((number, at + len)),
        None => {
            let ends =
                bytes[at..].iter().take(10).all(|&byte| byte >= 0x80) && bytes.len() < at + 10;
            let why = match ends {
                true => "the file ends before it is whole: it is cut off".to_string(),
                false => "a number that is not in its shortest form, or above 64 bits".to_string(),
            };
            Err(finding(at, part, why))
        }
    }
}

#[cfg(test)]
mod tests {
    use super::*;

    /// Sets of all kinds of blocks: the ids are those written, and each block is what the writer gives of its own.
    #[test]
    fn blocks_hold_what_was_written() {
        let kinds = [1, 5, 4096, 4097, 30_000, 61_440, 61_441, 65_535, 65_536];
        let mut ids = Vec::new();
        for (number, count) in (0_u32..).step_by(3).zip(kinds) {
            let step = 65_536 / count;
            let places = (0..65_536).filter(|place| step < 2 || place % step == 0);
            ids.extend(
                places
                    .take(count as usize)
                    .map(|place| number << 16 | place),
            );
        }
        let set = signalfern::set_write_to_vec(&ids).unwrap();
        assert!(Blocks::first_fault(&set, set.len() as u64).is_none());
        let mut found = Vec::new();
        for block in Blocks::of(&set).unwrap() {
            let block = block.unwrap_or_else(|it| panic!("{it:?}"));
            let alone = signalfern::set_write_to_vec(&block.ids()).unwrap();
            assert_eq!(alone, [&[1], block.bytes].concat());
            found.extend(block.ids());
        }
        assert_eq!(found, ids);
    }

    /// A place is found exactly where the library refuses.
    #[test]
    fn faults_are_those_of_the_library() {
        let ids: Vec<u32> = (0..40).map(|id| id * id * 97).collect();
        let set = signalfern::set_write_to_vec(&ids).unwrap();
        let (mut refused, mut sound) = (0, 0);
        for bit in 0..8 * set.len() {
            let mut bytes = set.clone();
            bytes[bit / 8] ^= 1 << (bit % 8);
            let is_sound = signalfern::set_check(&bytes).is_ok();
            assert_eq!(
                Blocks::first_fault(&bytes, bytes.len() as u64).is_none(),
                is_sound,
                "{bit}"
            );
            refused += usize::from(!is_sound);
            sound += usize::from(is_sound);
        }
        for len in 0..set.len() {
            assert!(Blocks::first_fault(&set[..len], len as u64).is_some());
        }
        assert!(refused > 50 && sound > 50, "{refused} {sound}");
    }
}
