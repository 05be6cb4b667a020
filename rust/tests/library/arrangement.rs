//! Blocks and jump entries in an order that no writer makes, and headers that nobody read.

use crate::common::damage::{asked, large_columns, small_columns, Tally};
use crate::common::parts::{self, Parts};
use crate::common::{ids_of, same, values_of_width, Random, EDITIONS, POWERS};

/// Rewrites the blocks of a sound column in some way that a writer would not.
fn rearranged(random: &mut Random, sound: &Parts) -> Parts {
    let mut changed = sound.clone();
    let blocks = sound.blocks();
    let end = sound.jumps_at() - 6;
    let at = random.below(blocks.len());
    let (start, number, count) = blocks[at];
    let after = blocks.get(at + 1).map_or(end, |next| next.0);
    let put_short = |bytes: &mut Vec<u8>, at: usize, short: usize| {
        bytes[at..at + 2].copy_from_slice(&(short as u16).to_le_bytes());
    };
    match random.below(10) {
        // Another number or another count.
        0 => {
            let numbers = [0, 1, number as usize + 1, 32_765, 32_766, 32_767, 65_535];
            put_short(&mut changed.ids, start, random.pick(&numbers));
        }
        1 => {
            let counts = [
                count,
                count - 1,
                count.saturating_sub(2),
                4094,
                4095,
                65_534,
                65_535,
            ];
            put_short(&mut changed.ids, start + 2, random.pick(&counts) % 65_536);
        }
        // A block left out, twice, or the end block before it.
        2 => drop(changed.ids.drain(start..after)),
        3 => {
            let block = sound.ids[start..after].to_vec();
            drop(changed.ids.splice(after..after, block));
        }
        4 => drop(
            changed
                .ids
                .splice(start..start, [0xFF, 0x7F, 0, 0, 0xFF, 0xFF]),
        ),
        // Other data: a swap of two shorts, which may be places, ranks or parts of words.
        5 if after - start >= 8 => {
            let shorts = (after - start - 4) / 2;
            let (a, b) = (random.below(shorts), random.below(shorts));
            for byte in 0..2 {
                changed
                    .ids
                    .swap(start + 4 + 2 * a + byte, start + 4 + 2 * b + byte);
            }
        }
        // Bytes between the end block and the entries, or the end block gone.
        6 => drop(changed.ids.splice(end + 6..end + 6, [0; 8])),
        7 => drop(changed.ids.drain(end..end + 6)),
        // Jump entries: one more, one less, all gone, or another one in some place.
        8 => {
            let entry = random.pick(&[0, 1, u32::MAX, end as u32, end as u32 - 1]);
            let jumps = sound.numbers[parts::JUMPS] as usize;
            if jumps > 0 {
                let at = sound.jumps_at() + 8 * random.below(jumps) + 4 * random.below(2);
                changed.ids[at..at + 4].copy_from_slice(&entry.to_le_bytes());
            }
        }
        _ => match random.below(3) {
            0 => {
                changed.numbers[parts::JUMPS] += 1;
                changed
                    .ids
                    .extend((sound.numbers[parts::COUNT] as u32).to_le_bytes());
                changed.ids.extend((end as u32).to_le_bytes());
            }
            1 => {
                changed.ids.truncate(sound.jumps_at());
                changed.numbers[parts::JUMPS] = 0;
            }
            _ => changed.numbers[parts::JUMPS] ^= 1,
        },
    }
    if random.one_in(3) {
        let near = [count as u64, 1, 65_536];
        let total = sound.numbers[parts::COUNT].saturating_sub(random.pick(&near));
        changed.numbers[parts::COUNT] = total;
        // In edition 3 there are too many bytes then, or another directory.
        if sound.numbers[parts::EDITION] != 3 {
            let bits = total * sound.numbers[parts::WIDTH];
            changed.values.resize(bits.div_ceil(8) as usize, 0);
        }
    }
    changed
}

#[test]
fn blocks_and_entries_rearranged() {
    let mut random = Random::new(25);
    let mut tally = Tally::default();
    for _ in 0..400 {
        let blocks: Vec<(u32, usize)> = (0..random.below(3) + 1)
            .map(|i| (2 * i as u32 + random.below(2) as u32, random.below(5) + 1))
            .collect();
        let ids = ids_of(&mut random, &blocks);
        let values = values_of_width(&mut random, ids.len(), 4);
        let (edition, power) = (random.pick(&EDITIONS), random.pick(&POWERS));
        let column = signalfern::write_to_vec(&ids, &values, edition, power).unwrap();
        let (sound, asked) = (Parts::of(&column), asked(&column));
        for _ in 0..30 {
            let changed = rearranged(&mut random, &sound).bytes_with_lengths();
            tally.try_all(&changed, &asked);
        }
    }
    for column in large_columns(&mut random) {
        let (sound, asked) = (Parts::of(&column), asked(&column));
        for _ in 0..60 {
            let changed = rearranged(&mut random, &sound).bytes_with_lengths();
            tally.try_all(&changed, &asked);
        }
    }
    tally.has(&[0, 10, 13, 15]);
}

#[test]
fn headers_that_nobody_read() {
    let mut random = Random::new(26);
    let mut tally = Tally::default();
    let mut columns = small_columns(&mut random);
    columns.extend(large_columns(&mut random));
    for bytes in &columns {
        let sound = same::open(bytes).unwrap().header();
        let asked = asked(bytes);
        for _ in 0..600 {
            let mut made = sound;
            let wild = random.next() >> random.below(64);
            let len = bytes.len() as u64;
            match random.below(13) {
                0 => made.count = wild,
                1 => made.power = random.pick(&[0, 6, 7, 8, 12, 15, 16, wild]),
                2 => made.id_bytes = random.pick(&[5, 6, 13, 14, len, wild]),
                3 => made.jump_count = random.pick(&[0, 1, 2, 3, 32_767, 32_768, wild]),
                4 => made.width = random.pick(&[0, 1, 63, 64, 65, wild]),
                5 => made.smallest = wild as i64,
                6 => made.divisor = random.pick(&[0, 1, 2, u64::MAX, wild]),
                7 => made.value_bytes = wild,
                8 => made.start = random.pick(&[0, 1, len, u64::MAX, wild]),
                // The whole moved or wrapped round.
                9 => {
                    made.id_bytes = random.below(bytes.len() + 1) as u64;
                    made.start = len.wrapping_sub(made.id_bytes + made.value_bytes);
                }
                10 => {
                    made.jump_count = random.below(6) as u64;
                    made.count = random.below(9) as u64;
                    made.width = random.below(9) as u64;
                }
                11 => made.edition = random.pick(&[0, 1, 2, 3, 4, 5, wild]),
                _ => made = signalfern::Header::default(),
            }
            if random.one_in(2) && made.count <= 1 << 32 && made.width <= 64 {
                made.value_bytes = (made.count * made.width).div_ceil(8);
                made.id_bytes = len.saturating_sub(made.start.saturating_add(made.value_bytes));
            }
            for _ in 0..4 {
                let id = random.pick(&asked);
                tally.count(same::look_up_in(made, bytes, id).err());
            }
            let low = random.next() as i64 >> random.below(64);
            tally.count(same::first_between_in(made, bytes, low, 7).err());
        }
    }
    tally.has(&[0, 9, 10, 11, 14, 15]);
}
