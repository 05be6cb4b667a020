//! The id section: blocks, rank tables, the end block and the jump entries.

use crate::{Column, MAX_ID};

/// The end block.
const END: [u8; 6] = [0xFF, 0x7F, 0, 0, 0xFF, 0xFF];
const END_NUMBER: u16 = 0x7FFF;
pub(crate) const LAST_NUMBER: u16 = (MAX_ID >> 16) as u16;
const WORDS: usize = 1024;
const BITMAP_BYTES: usize = 8 * WORDS;

/// How a block's places are written.
#[derive(Clone, Copy, Debug, PartialEq, Eq)]
pub(crate) enum Kind {
    Sparse,
    Dense,
    All,
}

impl Kind {
    pub fn of(count: usize) -> Self {
        match count {
            0..=4095 => Self::Sparse,
            4096..=65535 => Self::Dense,
            _ => Self::All,
        }
    }
}

/// Bytes of a rank table: two for each 2^p places.
pub(crate) fn rank_bytes(power: u32) -> usize {
    if power == 0 {
        0
    } else {
        1 << (17 - power)
    }
}

/// Bytes of a block after its number and its count.
pub(crate) fn data_bytes(count: usize, power: u32) -> usize {
    match Kind::of(count) {
        Kind::Sparse => 2 * count,
        Kind::Dense => rank_bytes(power) + BITMAP_BYTES,
        Kind::All => 0,
    }
}

pub(crate) fn short(bytes: &[u8]) -> u16 {
    u16::from_le_bytes([bytes[0], bytes[1]])
}

fn block_number(id: u32) -> u16 {
    (id >> 16) as u16
}

fn blocks_of(ids: &[u32]) -> impl Iterator<Item = &[u32]> {
    ids.chunk_by(|a, b| block_number(*a) == block_number(*b))
}

/// The size of an id section before it is written.
pub(crate) struct Layout {
    power: u32,
    block_bytes: u64,
    jump_count: u64,
}

impl Layout {
    pub fn of(ids: &[u32], power: u32) -> Self {
        let block_bytes = blocks_of(ids)
            .map(|block| 4 + data_bytes(block.len(), power) as u64)
            .sum();
        let jump_count = match ids.last() {
            None => 1,
            // Two entries are written as none.
            Some(&last) if block_number(last) == 0 => 0,
            Some(&last) => u64::from(block_number(last)) + 2,
        };
        Self {
            power,
            block_bytes,
            jump_count,
        }
    }

    pub fn bytes(&self) -> u64 {
        self.block_bytes + END.len() as u64 + 8 * self.jump_count
    }

    pub fn jump_count(&self) -> u64 {
        self.jump_count
    }

    /// Writes the section; `out` has exactly its bytes.
    pub fn write(&self, ids: &[u32], out: &mut [u8]) {
        let (blocks, rest) = out.split_at_mut(self.block_bytes as usize);
        let (end, jumps) = rest.split_at_mut(END.len());
        end.copy_from_slice(&END);
        let mut jumps = jumps.chunks_exact_mut(8);
        let mut next_number = 0;
        let (mut start, mut ordinal) = (0, 0);
        for block in blocks_of(ids) {
            // A missing block has the entry of the next one written.
            let number = block_number(block[0]);
            for entry in jumps.by_ref().take(usize::from(number + 1 - next_number)) {
                put_entry(entry, ordinal, start);
            }
            next_number = number + 1;
            start += write_block(block, self.power, &mut blocks[start..]);
            ordinal += block.len();
        }
        for entry in jumps {
            put_entry(entry, ordinal, start);
        }
    }
}

fn put_entry(entry: &mut [u8], ordinal: usize, start: usize) {
    entry[..4].copy_from_slice(&(ordinal as u32).to_le_bytes());
    entry[4..].copy_from_slice(&(start as u32).to_le_bytes());
}

/// Writes one block to the front of `out`; gives its bytes.
fn write_block(block: &[u32], power: u32, out: &mut [u8]) -> usize {
    let len = 4 + data_bytes(block.len(), power);
    let (head, data) = out[..len].split_at_mut(4);
    head[..2].copy_from_slice(&block_number(block[0]).to_le_bytes());
    head[2..].copy_from_slice(&((block.len() - 1) as u16).to_le_bytes());
    match Kind::of(block.len()) {
        Kind::Sparse => {
            for (entry, &id) in data.chunks_exact_mut(2).zip(block) {
                entry.copy_from_slice(&(id as u16).to_le_bytes());
            }
        }
        Kind::Dense => {
            let mut words = [0u64; WORDS];
            for &id in block {
                words[usize::from(id as u16 >> 6)] |= 1 << (id & 63);
            }
            let (ranks, bitmap) = data.split_at_mut(rank_bytes(power));
            for (out, rank) in ranks.chunks_exact_mut(2).zip(ranks_of(&words, power)) {
                out.copy_from_slice(&rank.to_be_bytes());
            }
            for (out, word) in bitmap.chunks_exact_mut(8).zip(words) {
                out.copy_from_slice(&word.to_le_bytes());
            }
        }
        Kind::All => {}
    }
    len
}

/// For each stride the ones before it; p > 0.
fn ranks_of(words: &[u64; WORDS], power: u32) -> impl Iterator<Item = u16> + '_ {
    let stride = 1 << (power.max(7) - 6);
    words.chunks_exact(stride).scan(0, |before, stride| {
        let rank = *before;
        *before += stride
            .iter()
            .map(|word| word.count_ones() as u16)
            .sum::<u16>();
        Some(rank)
    })
}

fn words_of(bitmap: &[u8]) -> [u64; WORDS] {
    let mut words = [0; WORDS];
    for (word, bytes) in words.iter_mut().zip(bitmap.chunks_exact(8)) {
        *word = u64::from_le_bytes(bytes.try_into().expect("chunks of eight"));
    }
    words
}

/// Whether the section is what the writer makes of the ids that it lists.
pub(crate) fn sound(column: &Column, section: &[u8]) -> bool {
    let power = column.power as u32;
    let jump_count = column.jump_count as usize;
    let (blocks, jumps) = section.split_at(section.len() - 8 * jump_count);
    let entry_is = |e: usize, ordinal: u64, start: usize| {
        let mut entry = [0; 8];
        put_entry(&mut entry, ordinal as usize, start);
        jumps.get(8 * e..8 * e + 8) == Some(&entry)
    };
    let (mut start, mut ordinal, mut next_number) = (0, 0, 0);
    while let Some(head) = blocks.get(start..start + 4) {
        let (number, count) = (short(head), usize::from(short(&head[2..])) + 1);
        if number == END_NUMBER {
            break;
        }
        if number < next_number || number > LAST_NUMBER {
            return false;
        }
        let data_start = start + 4;
        let Some(data) = blocks.get(data_start..data_start + data_bytes(count, power)) else {
            return false;
        };
        if !block_sound(data, count, power) {
            return false;
        }
        let mut entries = usize::from(next_number)..=usize::from(number);
        if jump_count > 0 && !entries.all(|e| entry_is(e, ordinal, start)) {
            return false;
        }
        next_number = number + 1;
        ordinal += count as u64;
        start = data_start + data.len();
    }
    let expected_jumps = match usize::from(next_number) {
        0 => 1,
        1 => 0,
        blocks => blocks + 1,
    };
    blocks.get(start..) == Some(&END)
        && ordinal == column.count
        && jump_count == expected_jumps
        && (jump_count == 0 || entry_is(jump_count - 1, ordinal, start))
}

/// Whether a block's data list `count` places as the writer does.
fn block_sound(data: &[u8], count: usize, power: u32) -> bool {
    match Kind::of(count) {
        Kind::Sparse => {
            let mut places = data.chunks_exact(2).map(short);
            let mut before = places.next();
            places.all(|place| before.replace(place) < Some(place))
        }
        Kind::Dense => {
            let (ranks, bitmap) = data.split_at(rank_bytes(power));
            let words = words_of(bitmap);
            let ones: usize = words.iter().map(|word| word.count_ones() as usize).sum();
            ones == count
                && (ranks.chunks_exact(2))
                    .zip(ranks_of(&words, power))
                    .all(|(bytes, rank)| bytes == rank.to_be_bytes())
        }
        Kind::All => true,
    }
}

/// All ids, of a section known to be sound.
pub(crate) fn read(column: &Column, section: &[u8], mut ids: &mut [u32]) {
    let power = column.power as u32;
    let mut rest = section;
    while !ids.is_empty() {
        let base = u32::from(short(rest)) << 16;
        let count = usize::from(short(&rest[2..])) + 1;
        let (data, after) = rest[4..].split_at(data_bytes(count, power));
        let (out, ids_after) = ids.split_at_mut(count);
        read_block(data, base, power, out);
        (rest, ids) = (after, ids_after);
    }
}

fn read_block(data: &[u8], base: u32, power: u32, out: &mut [u32]) {
    match Kind::of(out.len()) {
        Kind::Sparse => {
            for (id, place) in out.iter_mut().zip(data.chunks_exact(2)) {
                *id = base | u32::from(short(place));
            }
        }
        Kind::Dense => {
            let mut out = out.iter_mut();
            for (i, mut word) in words_of(&data[rank_bytes(power)..]).into_iter().enumerate() {
                while word != 0 {
                    if let Some(id) = out.next() {
                        *id = base | (64 * i as u32) | word.trailing_zeros();
                    }
                    word &= word - 1;
                }
            }
        }
        Kind::All => {
            for (id, place) in out.iter_mut().zip(0..) {
                *id = base | place;
            }
        }
    }
}
