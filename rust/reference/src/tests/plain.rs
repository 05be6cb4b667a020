//! A writer so plain that it can be read beside the documents: their rules one by one, with no thought of
//! speed.

use std::collections::{BTreeMap, BTreeSet};

pub fn put_number(out: &mut Vec<u8>, mut number: u128) {
    while number >= 128 {
        out.push((number % 128 + 128) as u8);
        number /= 128;
    }
    out.push(number as u8);
}

pub fn put_low_first(out: &mut Vec<u8>, number: usize, bytes: usize) {
    out.extend((0..bytes).map(|i| (number >> (8 * i)) as u8));
}

/// What the writer gives that is told this edition.
pub fn plain_column(pairs: &BTreeMap<u32, i64>, edition: u32, power: u32) -> Vec<u8> {
    let column = |edition| column_of(pairs, edition, power);
    let distinct: BTreeSet<i64> = pairs.values().copied().collect();
    if edition != 4 {
        return column(edition);
    }
    let plain = column(1);
    // A table has 2 to 256 entries, and its column is shorter than edition 1's.
    let table = (2..=256).contains(&distinct.len()).then(|| column(4));
    table.filter(|it| it.len() < plain.len()).unwrap_or(plain)
}

/// The column of an edition; of edition 4 whether it is the shorter one or not.
pub fn column_of(pairs: &BTreeMap<u32, i64>, edition: u32, power: u32) -> Vec<u8> {
    let (section, entries) = plain_ids(pairs.keys(), power);
    let exact: Vec<i128> = pairs.values().map(|&v| i128::from(v)).collect();
    let smallest = exact.iter().copied().min().unwrap_or(0);
    let greatest = exact.iter().copied().max().unwrap_or(0);
    let mut divisor = 1;
    if smallest != greatest {
        let differences = exact.iter().map(|v| (v - exact[0]).unsigned_abs());
        divisor = differences.fold(0, plain_gcd);
    }
    let (width, smallest, divisor, packed) = match edition {
        3 => (0, 0, divisor, plain_runs(&exact, divisor)),
        4 => {
            let (entries, width, packed) = plain_table(&exact);
            (width, 0, entries, packed)
        }
        _ => {
            let (width, packed) = plain_packed(&exact, divisor, edition);
            (width, smallest, divisor, packed)
        }
    };
    let least = if smallest >= 0 {
        2 * smallest
    } else {
        -2 * smallest - 1
    };
    let mut out = Vec::new();
    for number in [
        edition as usize,
        pairs.len(),
        power as usize,
        section.len(),
        entries,
        width,
    ] {
        put_number(&mut out, number as u128);
    }
    put_number(&mut out, least as u128);
    put_number(&mut out, divisor);
    put_number(&mut out, packed.len() as u128);
    out.extend(section);
    out.extend(packed);
    out
}

/// The id section, and how many jump entries it has.
fn plain_ids<'a>(ids: impl Iterator<Item = &'a u32>, power: u32) -> (Vec<u8>, usize) {
    let mut blocks: BTreeMap<usize, Vec<usize>> = BTreeMap::new();
    for &id in ids {
        let block = blocks.entry(id as usize / 65536).or_default();
        block.push(id as usize % 65536);
    }
    let mut section = Vec::new();
    let mut entries = Vec::new();
    let mut before = 0;
    for (&number, places) in &blocks {
        entries.resize(number + 1, (before, section.len()));
        put_low_first(&mut section, number, 2);
        put_low_first(&mut section, places.len() - 1, 2);
        match places.len() {
            1..=4095 => places
                .iter()
                .for_each(|&x| put_low_first(&mut section, x, 2)),
            65536 => {}
            _ => {
                for stride in (0..65536).step_by(1 << power).filter(|_| power > 0) {
                    let rank = places.iter().filter(|&&x| x < stride).count();
                    section.extend([(rank / 256) as u8, (rank % 256) as u8]);
                }
                let mut bitmap = vec![0; 8192];
                places.iter().for_each(|&x| bitmap[x / 8] |= 1 << (x % 8));
                section.extend(bitmap);
            }
        }
        before += places.len();
    }
    entries.push((before, section.len()));
    if entries.len() == 2 {
        entries.clear();
    }
    section.extend([0xFF, 0x7F, 0, 0, 0xFF, 0xFF]);
    for &(ids, start) in &entries {
        put_low_first(&mut section, ids, 4);
        put_low_first(&mut section, start, 4);
    }
    (section, entries.len())
}

/// The width of these values, and their bits in bytes.
fn plain_packed(exact: &[i128], divisor: u128, edition: u32) -> (usize, Vec<u8>) {
    let smallest = exact.iter().copied().min().unwrap_or(0);
    let greatest = exact.iter().copied().max().unwrap_or(0);
    let spread = (greatest - smallest) as u128 / divisor;
    let mut widths: Vec<usize> = (0..=64).collect();
    if edition == 2 {
        widths = vec![0, 1, 2, 4, 8, 12, 16, 20, 24, 28, 32, 40, 48, 56, 64];
    }
    let suffices = |&w: &usize| spread < 1 << w;
    let width = widths.into_iter().find(suffices).expect("64 is enough");
    let stored = exact.iter().map(|v| (v - smallest) as u128 / divisor);
    (width, plain_bits(stored, width, edition))
}

/// Numbers of so many bits in bytes; of edition 2 low bit first, of the others high bit first.
fn plain_bits(stored: impl Iterator<Item = u128>, width: usize, edition: u32) -> Vec<u8> {
    let mut bits = Vec::new();
    for stored in stored {
        let low_first = (0..width).map(|bit| stored >> bit & 1 == 1);
        match edition {
            2 => bits.extend(low_first),
            _ => bits.extend(low_first.rev()),
        }
    }
    let mut packed = vec![0u8; bits.len().div_ceil(8)];
    for (j, _) in bits.iter().enumerate().filter(|(_, &bit)| bit) {
        packed[j / 8] |= 1 << if edition == 2 { j % 8 } else { 7 - j % 8 };
    }
    packed
}

/// The value section of edition 3: the directory, and then the runs' bytes.
fn plain_runs(exact: &[i128], divisor: u128) -> Vec<u8> {
    let (mut directory, mut runs) = (Vec::new(), Vec::new());
    for run in exact.chunks(16384) {
        let (width, packed) = plain_packed(run, divisor, 3);
        // Two's complement: the eight low bytes of a number that is exact.
        directory.extend(&run.iter().min().unwrap().to_le_bytes()[..8]);
        directory.extend(&run.iter().max().unwrap().to_le_bytes()[..8]);
        put_low_first(&mut directory, runs.len(), 8);
        directory.push(width as u8);
        runs.extend(packed);
    }
    [directory, runs].concat()
}

/// The value section of edition 4, with the count of entries and the width of a code: the entries, and then
/// each value's place among them.
fn plain_table(exact: &[i128]) -> (u128, usize, Vec<u8>) {
    let table: Vec<i128> = BTreeSet::from_iter(exact.iter().copied())
        .into_iter()
        .collect();
    let width = (0..).find(|width| table.len() - 1 < 1 << width);
    let width = width.expect("64 is enough");
    let codes = (exact.iter()).map(|v| table.iter().take_while(|&entry| entry < v).count() as u128);
    let mut section = Vec::new();
    for entry in &table {
        section.extend(&entry.to_le_bytes()[..8]);
    }
    section.extend(plain_bits(codes, width, 4));
    (table.len() as u128, width, section)
}

fn plain_gcd(a: u128, b: u128) -> u128 {
    if b == 0 {
        a
    } else {
        plain_gcd(b, a % b)
    }
}
