//! A column taken apart, to be put together again with one thing changed.

use super::LUCENE_WIDTHS;

/// The header's nine numbers in order.
pub const EDITION: usize = 0;
pub const COUNT: usize = 1;
pub const POWER: usize = 2;
pub const ID_BYTES: usize = 3;
pub const JUMPS: usize = 4;
pub const WIDTH: usize = 5;
pub const LEAST: usize = 6;
pub const STEP: usize = 7;
pub const VALUE_BYTES: usize = 8;

/// A column as its header numbers and its two sections.
#[derive(Clone, Debug)]
pub struct Parts {
    pub numbers: [u64; 9],
    pub ids: Vec<u8>,
    pub values: Vec<u8>,
}

pub fn put_number(out: &mut Vec<u8>, mut number: u64) {
    while number >= 128 {
        out.push(number as u8 | 128);
        number >>= 7;
    }
    out.push(number as u8);
}

impl Parts {
    /// Takes a sound column apart.
    pub fn of(bytes: &[u8]) -> Self {
        let mut numbers = [0; 9];
        let mut at = 0;
        for number in &mut numbers {
            let last = at + bytes[at..].iter().position(|&byte| byte < 128).unwrap();
            for &byte in bytes[at..=last].iter().rev() {
                *number = *number << 7 | u64::from(byte & 127);
            }
            at = last + 1;
        }
        let (ids, values) = bytes[at..].split_at(numbers[ID_BYTES] as usize);
        Self {
            numbers,
            ids: ids.to_vec(),
            values: values.to_vec(),
        }
    }

    /// The first `blocks` blocks full, more than one of them, and 42 for every value.
    pub fn full_blocks(blocks: u32) -> Self {
        let mut ids = Vec::new();
        for number in 0..blocks as u16 {
            ids.extend(number.to_le_bytes());
            ids.extend([0xFF, 0xFF]);
        }
        ids.extend([0xFF, 0x7F, 0, 0, 0xFF, 0xFF]);
        for number in 0..=blocks {
            ids.extend((number << 16).to_le_bytes());
            ids.extend((4 * number).to_le_bytes());
        }
        let (count, jumps) = (u64::from(blocks) << 16, u64::from(blocks) + 1);
        Self {
            numbers: [1, count, 9, ids.len() as u64, jumps, 0, 84, 1, 0],
            ids,
            values: Vec::new(),
        }
    }

    /// The bytes, with the header as it stands.
    pub fn bytes(&self) -> Vec<u8> {
        let mut out = Vec::new();
        for number in self.numbers {
            put_number(&mut out, number);
        }
        out.extend(&self.ids);
        out.extend(&self.values);
        out
    }

    /// The bytes, with the sections' lengths put right in the header.
    pub fn bytes_with_lengths(&self) -> Vec<u8> {
        let mut parts = self.clone();
        parts.numbers[ID_BYTES] = self.ids.len() as u64;
        parts.numbers[VALUE_BYTES] = self.values.len() as u64;
        parts.bytes()
    }

    /// Where the stored numbers start in the value section: edition 3 has its directory before them, and
    /// edition 4 its table.
    pub fn packed_at(&self) -> usize {
        match self.numbers[EDITION] {
            3 => 25 * self.numbers[COUNT].div_ceil(16_384) as usize,
            4 => 8 * self.numbers[STEP] as usize,
            _ => 0,
        }
    }

    /// The width of the stored numbers; in edition 3 that of the first run.
    pub fn width(&self) -> usize {
        match self.numbers[EDITION] {
            3 => self.values.get(24).map_or(0, |&width| width.into()),
            _ => self.numbers[WIDTH] as usize,
        }
    }

    /// The weights of bit j of the stored numbers, as powers of two: in its byte, and in its number.
    /// Edition 2 has the low bit first, the others the high bit.
    fn weights(&self, j: usize, width: usize) -> (usize, usize) {
        match self.numbers[EDITION] {
            2 => (j % 8, j % width),
            _ => (7 - j % 8, width - 1 - j % width),
        }
    }

    /// The stored numbers of a sound column, taken bit by bit; in edition 3 of one run.
    pub fn stored(&self) -> Vec<u64> {
        let (count, width) = (self.numbers[COUNT] as usize, self.width());
        let runs = self.numbers[COUNT].div_ceil(16_384);
        assert!(
            self.numbers[EDITION] != 3 || runs <= 1,
            "more runs than one"
        );
        let packed = &self.values[self.packed_at()..];
        let mut stored = vec![0; count];
        for j in 0..count * width {
            let (in_byte, in_number) = self.weights(j, width);
            stored[j / width] |= u64::from(packed[j / 8] >> in_byte & 1) << in_number;
        }
        stored
    }

    /// Puts other stored numbers, as many, at the least width that takes them, in edition 1 or 2.
    pub fn store(&mut self, stored: &[u64]) {
        let most = stored.iter().fold(0, |most, &number| most.max(number));
        let bits = u64::BITS - most.leading_zeros();
        let width = match self.numbers[EDITION] {
            2 if bits > 0 => LUCENE_WIDTHS.into_iter().find(|&it| it >= bits).unwrap(),
            _ => bits,
        } as usize;
        self.values = vec![0; (stored.len() * width).div_ceil(8)];
        for j in 0..stored.len() * width {
            let (in_byte, in_number) = self.weights(j, width);
            let bit = stored[j / width] >> in_number & 1;
            self.values[j / 8] |= (bit as u8) << in_byte;
        }
        self.numbers[WIDTH] = width as u64;
        self.numbers[VALUE_BYTES] = self.values.len() as u64;
    }

    /// The start, the number and the count of each block of a sound column.
    pub fn blocks(&self) -> Vec<(usize, u32, usize)> {
        let short = |at: usize| u32::from(u16::from_le_bytes([self.ids[at], self.ids[at + 1]]));
        let mut blocks = Vec::new();
        let mut start = 0;
        while short(start) != 32_767 {
            let count = short(start + 2) as usize + 1;
            blocks.push((start, short(start), count));
            start += 4 + match count {
                0..=4095 => 2 * count,
                65_536 => 0,
                _ => 8192 + self.rank_bytes(),
            };
        }
        blocks
    }

    /// Bytes of a rank table.
    pub fn rank_bytes(&self) -> usize {
        match self.numbers[POWER] {
            0 => 0,
            power => 1 << (17 - power),
        }
    }

    /// Where the jump entries start in the id section.
    pub fn jumps_at(&self) -> usize {
        self.ids.len() - 8 * self.numbers[JUMPS] as usize
    }
}
