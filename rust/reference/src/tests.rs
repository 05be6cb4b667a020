//! The reference against a writer so plain that it can be read beside the document, and against
//! the pair list itself.

mod divisor;
mod editions;
mod in_layers;
mod judge;
mod layered;
mod next;
mod page;
mod plain;
mod plans;
mod read_from;
mod runs;
mod set;
mod table;

use std::collections::BTreeMap;

use super::*;
use plain::{plain_column, put_low_first, put_number};

/// The numbers of the editions.
const EDITIONS: [u32; 4] = [1, 2, 3, 4];

/// A small generator (xorshift with a multiplied output).
struct Random(u64);

impl Random {
    fn next(&mut self) -> u64 {
        self.0 ^= self.0 >> 12;
        self.0 ^= self.0 << 25;
        self.0 ^= self.0 >> 27;
        self.0.wrapping_mul(0x2545_F491_4F6C_DD1D)
    }

    fn below(&mut self, bound: u64) -> u64 {
        self.next() % bound
    }
}

fn some_pairs(random: &mut Random) -> BTreeMap<u32, i64> {
    let mut ids = Vec::new();
    for _ in 0..random.below(4) {
        let number = [0, 1, 2, 3, 9, 200][random.below(6) as usize];
        let count = [1, 3, 100, 4095, 4096, 20000, 65535, 65536][random.below(8) as usize];
        let mut places: Vec<u32> = (0..65536).collect();
        for i in 0..count {
            places.swap(i, i + random.below((65536 - i) as u64) as usize);
        }
        ids.extend(places[..count].iter().map(|x| (number << 16) | x));
    }
    // Any values; or multiples of a step, with a rest that all of them share.
    let step = [1, 5, 1 << 20, 3 << 30][random.below(4) as usize];
    let width = match step {
        1 => random.below(64),
        _ => 32 + random.below(32),
    };
    let rest = random.below(step as u64) as i64;
    let mut value = || (random.next() as i64 >> width) * step + rest;
    // Often few distinct ones.
    let few: Vec<i64> = (0..ids.len() % 300).map(|_| value()).collect();
    let mut values: Vec<i64> = ids.iter().map(|_| value()).collect();
    if !few.is_empty() && random.below(3) == 0 {
        values.fill_with(|| few[random.below(few.len() as u64) as usize]);
    }
    ids.into_iter().zip(values).collect()
}

#[test]
fn writes_as_the_plain_writer_does() {
    let mut random = Random(1);
    for round in 0..60 {
        let pairs = some_pairs(&mut random);
        let power = [0, 7, 8, 9, 10, 11, 12, 13, 14, 15][round % 10];
        let ids: Vec<u32> = pairs.keys().copied().collect();
        let values: Vec<i64> = pairs.values().copied().collect();
        for edition in EDITIONS {
            let column = plain_column(&pairs, edition, power);
            let mut out = vec![0xAA; column.len()];
            assert_eq!(
                write(&ids, &values, edition, power, &mut out),
                Ok(column.len() as u64)
            );
            assert!(out == column, "round {round}");

            assert_eq!(check(&column), Ok(ids.len() as u64));
            let mut read_ids = vec![0; ids.len()];
            let mut read_values = vec![0; ids.len()];
            let count = read(&column, &mut read_ids, &mut read_values);
            assert_eq!(count, Ok(ids.len() as u64));
            assert!(read_ids == ids && read_values == values, "round {round}");
        }
    }
}

#[test]
fn packs_small_lists_as_the_plain_writer_does() {
    let mut random = Random(2);
    for _ in 0..20_000 {
        let mut pairs = BTreeMap::new();
        let width = random.below(65) as u32;
        for id in 0..random.below(20) as u32 {
            let value = random.next().checked_shr(width).unwrap_or(0) as i64;
            pairs.insert(id, value.wrapping_sub(random.below(3) as i64));
        }
        let ids: Vec<u32> = pairs.keys().copied().collect();
        let values: Vec<i64> = pairs.values().copied().collect();
        for edition in EDITIONS {
            let column = plain_column(&pairs, edition, 9);
            let mut out = vec![0xAA; column.len()];
            let written = write(&ids, &values, edition, 9, &mut out);
            assert_eq!(written, Ok(column.len() as u64));
            assert_eq!(out, column);
            assert_eq!(check(&column), Ok(ids.len() as u64));
        }
    }
}

/// Document 02, [8], by the list of places alone: the middle one is probed, and the half that `r`
/// can be in is left.
fn plain_probes(places: &[u32], r: u32) -> u64 {
    let middle = places.len() / 2;
    let Some(&probe) = places.get(middle) else {
        return 0;
    };
    if probe == r {
        1
    } else if probe < r {
        1 + plain_probes(&places[middle + 1..], r)
    } else {
        1 + plain_probes(&places[..middle], r)
    }
}

#[test]
fn looks_up_what_the_list_holds() {
    let mut random = Random(3);
    for round in 0..30 {
        let pairs = some_pairs(&mut random);
        let power = [0, 7, 9, 12, 15][round % 5];
        let column = plain_column(&pairs, EDITIONS[round % 4], power);
        let opened = open(&column).expect("a written column opens");
        let listed: Vec<u32> = pairs.keys().copied().collect();
        for _ in 0..500 {
            let id = match random.below(3) {
                0 => random.below(u64::from(MAX_ID)) as u32,
                1 => random.below(300 << 16) as u32,
                _ if listed.is_empty() => 0,
                _ => listed[random.below(listed.len() as u64) as usize],
            };
            let block = listed.partition_point(|x| x >> 16 < id >> 16)
                ..listed.partition_point(|x| x >> 16 <= id >> 16);
            let dense = (4096..65536).contains(&block.len());
            let probes = match block.len() {
                0..=4095 => plain_probes(&listed[block], id),
                _ => 0,
            };
            let (r, stride) = (
                u64::from(id % 65536),
                if power == 0 { 10 } else { power - 6 },
            );
            let answer = match listed.binary_search(&id) {
                Ok(ordinal) => Answer::Found {
                    ordinal: ordinal as u64,
                    value: pairs[&id],
                    words: u64::from(dense) * ((r / 64) % (1 << stride) + 1),
                    probes,
                },
                Err(_) => Answer::Absent {
                    words: u64::from(dense),
                    probes,
                },
            };
            assert_eq!(look_up(&column, id), Ok(answer), "round {round} id {id}");
            assert_eq!(look_up_in(&opened, &column, id), Ok(answer));
        }
    }
}

#[test]
fn halving_finds_what_the_scan_finds_where_entries_ascend() {
    let mut random = Random(4);
    for count in (0..70).chain([255, 1000, 2047, 2048, 4094, 4095]) {
        let mut places: Vec<u32> = (0..count).map(|i| 16 * i + 1).collect();
        for place in &mut places {
            *place += random.below(15) as u32;
        }
        let entries: Vec<u8> = (places.iter())
            .flat_map(|&place| (place as u16).to_le_bytes())
            .collect();
        // As many as the count has bits.
        let most = u64::from(u32::BITS - count.leading_zeros());
        let below = (random.next() as u16, random.next() as u16);
        let asked = (places.iter()).flat_map(|&x| [x as u16 - 1, x as u16, x as u16 + 1]);
        for r in asked.chain([0, below.0, below.1, u16::MAX]) {
            let (index, probes) = halve(&entries, r);
            assert_eq!(index, scan(&entries, r), "{r} of {count}");
            assert_eq!(
                probes,
                plain_probes(&places, u32::from(r)),
                "{r} of {count}"
            );
            assert!(probes <= most, "{r} of {count}: {probes}");
        }
    }
}
