//! Columns with their id section changed where it decides, and headers with one number changed.

use signalfern::Header;

use super::parts::{self, Parts};
use super::same::HIGH;
use super::Random;

/// Other numbers and counts of blocks, other entries, other data.
pub fn changed(random: &mut Random, sound: &Parts) -> Vec<u8> {
    let mut changed = sound.clone();
    let blocks = sound.blocks();
    let (start, own, count) = random.pick(&blocks);
    let end = sound.jumps_at() - 6;
    let jumps = sound.numbers[parts::JUMPS] as usize;
    for _ in 0..1 + random.below(3) {
        let (at, short) = match random.below(6) {
            0 => {
                let high = (HIGH >> 16) as usize;
                let numbers = [0, own as usize + 1, high, high + 1, 32_765, 32_766, 32_767];
                (start, random.pick(&numbers))
            }
            1 => (
                start + 2,
                random.pick(&[0, count, count - 1, 4094, 4095, 65_535]),
            ),
            // A place, a rank, or a part of a word.
            2 | 3 if end - start > 4 => {
                let shorts = (end - start - 4) / 2;
                (start + 4 + 2 * random.below(shorts), random.next() as usize)
            }
            // The number of the end block.
            4 => (end, random.pick(&[32_764, 32_765, 32_766])),
            _ if jumps > 0 => {
                let number = random.pick(&[0, 1, end, end - 1, start, blocks[0].2]);
                let entry = random.below(jumps);
                (sound.jumps_at() + 8 * entry + 4 * random.below(2), number)
            }
            _ => (0, random.below(3)),
        };
        changed.ids[at..at + 2].copy_from_slice(&(short as u16).to_le_bytes());
    }
    changed.bytes()
}

/// A header with one number changed.
pub fn wild(random: &mut Random, mut header: Header, len: u64) -> Header {
    let number = random.next() >> random.below(64);
    match random.below(8) {
        0 => header.count = random.pick(&[0, 1, number]),
        1 => header.power = random.pick(&[0, 6, 7, 15]),
        2 => header.jump_count = random.pick(&[0, 1, 2, 3, 32_768]),
        3 => header.divisor = random.pick(&[0, 2, u64::MAX]),
        4 => header.start = random.pick(&[0, len, number]),
        5 => header.edition = random.pick(&[0, 1, 2, 3, 4, 5, number]),
        6 => {
            // The id section and the header moved by a few bytes.
            let by = random.below(5) as u64;
            header.start += by;
            header.id_bytes = header.id_bytes.wrapping_sub(by);
        }
        _ => header.smallest = number as i64,
    }
    header
}
