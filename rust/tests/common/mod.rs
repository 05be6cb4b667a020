//! What the integration tests share: a generator, lists of pairs, columns taken apart, and each call
//! beside the reference.
#![allow(dead_code, reason = "neither program uses all of it")]

pub mod by_c;
pub mod changes;
pub mod damage;
pub mod in_layers;
pub mod layers;
pub mod listed;
pub mod pages;
pub mod parts;
pub mod plans;
pub mod runs;
pub mod same;
pub mod tables;
pub mod tool;

use signalfern::Edition;

/// A small generator (xorshift with a multiplied output), so that every run tests the same inputs.
pub struct Random(u64);

impl Random {
    pub fn new(seed: u64) -> Self {
        Self(seed.wrapping_mul(0x9E37_79B9_7F4A_7C15) | 1)
    }

    pub fn next(&mut self) -> u64 {
        self.0 ^= self.0 >> 12;
        self.0 ^= self.0 << 25;
        self.0 ^= self.0 >> 27;
        self.0.wrapping_mul(0x2545_F491_4F6C_DD1D)
    }

    pub fn below(&mut self, bound: usize) -> usize {
        (self.next() >> 16) as usize % bound
    }

    pub fn pick<T: Copy>(&mut self, choices: &[T]) -> T {
        choices[self.below(choices.len())]
    }

    pub fn one_in(&mut self, chances: usize) -> bool {
        self.below(chances) == 0
    }
}

/// The editions. Told the last, the writer gives it or the first.
pub const EDITIONS: [Edition; 4] = [
    Edition::Plain,
    Edition::Lucene,
    Edition::Runs,
    Edition::Table,
];

/// Those in which a value is made of a stored number by the divisor.
pub const SCALED: [Edition; 3] = [Edition::Plain, Edition::Lucene, Edition::Runs];

/// Those whose header has the width and the smallest value of all stored numbers.
pub const PACKED: [Edition; 2] = [Edition::Plain, Edition::Lucene];

/// The widths of edition 2 (document 02, [6]), without 0.
pub const LUCENE_WIDTHS: [u32; 14] = [1, 2, 4, 8, 12, 16, 20, 24, 28, 32, 40, 48, 56, 64];

/// The allowed rank powers.
pub const POWERS: [u32; 10] = [0, 7, 8, 9, 10, 11, 12, 13, 14, 15];

/// Document 01's column of (0, 150), (2, 140), (7, 135) at rank power 9: 10 bytes of header, of which
/// the smallest value alone takes two, 8E 02; 16 of ids; D0.
pub const THREE_PAIRS: [u8; 27] = [
    0x01, 0x03, 0x09, 0x10, 0x00, 0x02, 0x8E, 0x02, 0x05, 0x01, 0x00, 0x00, 0x02, 0x00, 0x00, 0x00,
    0x02, 0x00, 0x07, 0x00, 0xFF, 0x7F, 0x00, 0x00, 0xFF, 0xFF, 0xD0,
];

/// Counts at and around the borders of the block kinds.
pub const BLOCK_COUNTS: [usize; 12] = [
    1, 2, 5, 100, 4094, 4095, 4096, 4097, 30_000, 65_534, 65_535, 65_536,
];

/// `count` ascending places of one block, as ids.
pub fn block_ids(random: &mut Random, number: u32, count: usize) -> Vec<u32> {
    // Selection sampling: each place is taken with the chance that fills the count.
    let mut wanted = count;
    let mut ids = Vec::with_capacity(count);
    for place in 0..65_536_usize {
        let left = 65_536 - place;
        if wanted == left || (wanted > 0 && random.below(left) < wanted) {
            ids.push((number << 16) | place as u32);
            wanted -= 1;
        }
    }
    ids
}

/// The ids of several blocks, given by number and count in ascending order.
pub fn ids_of(random: &mut Random, blocks: &[(u32, usize)]) -> Vec<u32> {
    blocks
        .iter()
        .flat_map(|&(number, count)| block_ids(random, number, count))
        .collect()
}

/// A few ascending ids, near and far.
pub fn few_ids(random: &mut Random, most: usize) -> Vec<u32> {
    let span = random.pick(&[50, 5_000, 70_000, 200_000, 3_000_000]);
    let mut ids: Vec<u32> = (0..random.below(most + 1))
        .map(|_| random.below(span) as u32)
        .collect();
    ids.sort_unstable();
    ids.dedup();
    ids
}

/// Values whose stored numbers have about the given width. They are multiples of a step, often with a
/// rest that all of them share, which takes none past the limits. One list in four has few distinct ones.
pub fn values_of_width(random: &mut Random, count: usize, width: u32) -> Vec<i64> {
    let (step, rests) = random.pick(&[(1, 1), (1, 1), (2, 2), (5, 3), (1000, 800)]);
    let rest = random.below(rests) as i64;
    let low = random.pick(&[0, 0, 7, -9, 1 << 40, i64::MIN, i64::MAX]);
    let mut values: Vec<i64> = (0..count)
        .map(|_| {
            let stored = random.next().checked_shr(64 - width).unwrap_or(0);
            low.wrapping_add_unsigned(stored.wrapping_mul(step)) / step as i64 * step as i64 + rest
        })
        .collect();
    if random.one_in(4) {
        let few = random.pick(&[2, 3, 4, 5, 16, 17, 255, 256, 257]);
        (few..count).for_each(|i| values[i] = values[random.below(few)]);
    }
    values
}

/// Bytes from their hexadecimal digits.
pub fn bytes(hex: &str) -> Vec<u8> {
    hex.split_whitespace()
        .map(|byte| u8::from_str_radix(byte, 16).unwrap())
        .collect()
}
