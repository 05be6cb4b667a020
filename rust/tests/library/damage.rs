//! Bytes that are no column, or no longer: check, reading and look-up beside the reference.

use crate::common::damage::{asked, large_columns, small_columns, Tally};
use crate::common::parts::{self, Parts};
use crate::common::{same, Random, PACKED};
use signalfern::{Edition, Refusal, MAX_ID};

#[test]
fn every_byte_of_small_columns() {
    let mut random = Random::new(20);
    let mut tally = Tally::default();
    for column in small_columns(&mut random) {
        let asked = &asked(&column)[..8.min(asked(&column).len())];
        for at in 0..column.len() {
            let mut bytes = column.clone();
            let head = at < 12;
            for change in 0..=255 {
                // All values in the header; elsewhere each bit, and a few more.
                if head || u8::is_power_of_two(change) || change % 37 == 0 {
                    bytes[at] = column[at] ^ change;
                    tally.try_all(&bytes, asked);
                }
            }
        }
    }
    tally.has(&[0, 8, 9, 10, 11, 12, 13, 14, 15]);
}

#[test]
fn cut_and_extended() {
    let mut random = Random::new(21);
    let mut tally = Tally::default();
    for column in small_columns(&mut random) {
        let asked = &asked(&column)[..6.min(asked(&column).len())];
        for len in 0..column.len() {
            tally.try_all(&column[..len], asked);
        }
        for more in [&[0][..], &[0xFF], &[0; 8], &column] {
            tally.try_all(&[&column[..], more].concat(), asked);
            tally.try_all(&[more, &column[..]].concat(), asked);
        }
    }
    tally.has(&[7, 9, 11, 14]);
}

#[test]
fn header_numbers_at_their_borders() {
    let mut random = Random::new(22);
    let mut tally = Tally::default();
    let borders = [
        0,
        1,
        2,
        6,
        7,
        8,
        9,
        14,
        15,
        16,
        63,
        64,
        65,
        127,
        128,
        32_766,
        32_767,
        32_768,
        u64::from(MAX_ID),
        u64::from(MAX_ID) + 1,
        u64::from(MAX_ID) + 2,
        1 << 32,
        1 << 61,
        1 << 63,
        u64::MAX - 8,
        u64::MAX,
    ];
    for column in small_columns(&mut random) {
        let asked = &asked(&column)[..6.min(asked(&column).len())];
        let sound = Parts::of(&column);
        for field in 0..9 {
            let own = sound.numbers[field];
            let near = [
                own.wrapping_sub(1),
                own.wrapping_add(1),
                own.wrapping_mul(2),
                own ^ 8,
            ];
            for number in borders.into_iter().chain(near) {
                let mut changed = sound.clone();
                changed.numbers[field] = number;
                tally.try_all(&changed.bytes(), asked);
                tally.try_all(&changed.bytes_with_lengths(), asked);
                // V as the changed count, width or table asks, with bytes to match.
                let bits = changed.numbers[parts::COUNT].checked_mul(changed.numbers[parts::WIDTH]);
                let table = match changed.numbers[parts::EDITION] {
                    4 => changed.numbers[parts::STEP],
                    _ => 0,
                };
                if let (Some(bits @ 0..=4000), 0..=1000) = (bits, table) {
                    let bytes = 8 * table + bits.div_ceil(8);
                    changed.values.resize(bytes as usize, 0);
                    tally.try_all(&changed.bytes_with_lengths(), asked);
                }
            }
        }
        // header + L + V is the byte count only modulo 2^64.
        let mut wraps = sound.clone();
        wraps.numbers[parts::COUNT] = 1000;
        let own = sound.numbers[parts::WIDTH];
        let (width, bytes) = match sound.numbers[parts::EDITION] {
            3 => (0, 8000),
            4 => (own, sound.packed_at() as u64 + 125 * own),
            _ => (64, 8000),
        };
        wraps.numbers[parts::WIDTH] = width;
        wraps.numbers[parts::VALUE_BYTES] = bytes;
        let there = (sound.ids.len() + sound.values.len()) as u64;
        wraps.numbers[parts::ID_BYTES] = there.wrapping_sub(bytes);
        assert_eq!(same::check(&wraps.bytes()), Err(Refusal::Length));
        tally.try_all(&wraps.bytes(), asked);
    }
    tally.has(&[0, 9, 10, 11, 13, 15]);
}

#[test]
fn stored_numbers() {
    // Sound ids with any smallest value, divisor, width and stored numbers.
    let mut random = Random::new(23);
    let mut tally = Tally::default();
    for _ in 0..20_000 {
        let count = random.below(6);
        let ids: Vec<u32> = (0..count as u32).collect();
        let edition = random.pick(&PACKED);
        let column = signalfern::write_to_vec(&ids, &vec![0; count], edition, 9).unwrap();
        let mut changed = Parts::of(&column);
        let width = random.pick(&[0, 1, 1, 2, 2, 3, 4, 7, 8, 9, 31, 32, 33, 62, 63, 64]);
        let step = random.pick(&[1, 1, 1, 2, 3, 5, 6, 1 << 32, 1 << 62, 1 << 63, u64::MAX]);
        let least = random.pick(&[0, 1, 2, 3, 4, 10, 11, 12, 60, u64::MAX - 1, u64::MAX]);
        changed.numbers[parts::WIDTH] = width;
        changed.numbers[parts::STEP] = step;
        changed.numbers[parts::LEAST] = least;
        let mut values: Vec<u8> = (0..(count * width as usize).div_ceil(8))
            .map(|_| random.next() as u8 & random.next() as u8)
            .collect();
        let spare = (values.len() * 8 - count * width as usize) as u32;
        if let Some(last) = values.last_mut().filter(|_| !random.one_in(10)) {
            *last = match edition {
                Edition::Plain => *last >> spare << spare,
                _ => *last << spare >> spare,
            };
        }
        changed.values = values;
        tally.try_all(&changed.bytes_with_lengths(), &ids);
    }
    tally.has(&[0, 10, 13, 15]);
    assert!(tally.0[0] > 2000, "{:?}", tally.0);
}

#[test]
fn single_changes_of_large_columns() {
    let mut random = Random::new(24);
    let mut tally = Tally::default();
    for column in large_columns(&mut random) {
        let asked = asked(&column);
        let parts = Parts::of(&column);
        let start = column.len() - parts.ids.len() - parts.values.len();
        let jumps = start + parts.jumps_at();
        let mut places: Vec<usize> = (0..20).map(|_| random.below(column.len())).collect();
        for (block, _, _) in parts.blocks() {
            places.extend(start + block..start + block + 8);
            let data = start + block + 4;
            places.extend((0..12).map(|_| data + random.below(parts.rank_bytes().max(1))));
        }
        places.extend(jumps - 6..jumps + 8 * parts.numbers[parts::JUMPS] as usize);
        places.extend([column.len() - 1, column.len() - 2]);
        for at in places {
            let mut bytes = column.clone();
            bytes[at] ^= random.pick(&[1, 2, 0x80, 0xFF, 0x10]);
            tally.try_all(&bytes, &asked);
        }
    }
    tally.has(&[12, 13, 15]);
}

#[test]
fn bytes_of_no_meaning() {
    let mut random = Random::new(27);
    let mut tally = Tally::default();
    for _ in 0..20_000 {
        let len = random.below(60);
        let mut bytes: Vec<u8> = (0..len)
            .map(|_| (random.next() >> random.below(60)) as u8)
            .collect();
        if let Some(first) = bytes.first_mut().filter(|_| random.one_in(2)) {
            *first = random.pick(&[1, 2, 3]);
        }
        tally.try_all(&bytes, &[0, 9, MAX_ID + 1]);
    }
    tally.has(&[7, 8, 9, 14]);
}
