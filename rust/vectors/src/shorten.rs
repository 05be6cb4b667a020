//! Byte strings in pieces, found by looking: repeats, rising numbers, noise.

use std::collections::HashMap;
use std::sync::OnceLock;

use crate::given::{number, object, text};
use crate::recipe::{hex, Noise};
use crate::Json;

/// The seeds that samples draw their bitmaps from, and how many bytes of each.
const SEEDS: std::ops::RangeInclusive<u32> = 1..=12;
const NOISE_BYTES: usize = 8192;

/// A piece is worth its words from so many bytes on.
const LEAST: usize = 48;

/// So many bytes of noise tell the state before them.
const TOLD_BY: usize = 8;

/// Each state of the noise after each seed, by the bytes that follow it.
fn states() -> &'static HashMap<[u8; TOLD_BY], u32> {
    static STATES: OnceLock<HashMap<[u8; TOLD_BY], u32>> = OnceLock::new();
    STATES.get_or_init(|| {
        let mut states = HashMap::new();
        for seed in SEEDS {
            let mut noise = Noise(seed);
            for _ in 0..NOISE_BYTES {
                let state = noise.0;
                let mut ahead = Noise(state);
                let bytes = std::array::from_fn(|_| ahead.next().expect("noise has no end"));
                states.insert(bytes, state);
                noise.next();
            }
        }
        states
    })
}

/// The pieces of a byte string.
pub fn pieces_of(bytes: &[u8]) -> Vec<Json> {
    let mut pieces = Vec::new();
    let (mut plain, mut at) = (0, 0);
    while at < bytes.len() {
        match piece_at(&bytes[at..]) {
            Some((piece, len)) => {
                if plain < at {
                    pieces.push(text(&hex(&bytes[plain..at])));
                }
                pieces.push(piece);
                at += len;
                plain = at;
            }
            None => at += 1,
        }
    }
    if plain < bytes.len() {
        pieces.push(text(&hex(&bytes[plain..])));
    }
    pieces
}

/// The longest piece at the front, and its bytes.
fn piece_at(bytes: &[u8]) -> Option<(Json, usize)> {
    let mut found: Vec<(Json, usize)> = Vec::new();
    found.extend(noise(bytes));
    for period in 1..=64 {
        found.extend(repeat(bytes, period));
    }
    for size in [2, 4, 8] {
        for high in [false, true] {
            found.extend(rising(bytes, size, high));
        }
    }
    // Of several as long as each other the first.
    let longest = found.iter().map(|it| it.1).max()?;
    found.into_iter().find(|it| it.1 == longest)
}

fn noise(bytes: &[u8]) -> Option<(Json, usize)> {
    let state = *states().get(bytes.first_chunk::<TOLD_BY>()?)?;
    let len = Noise(state).zip(bytes).take_while(|(a, b)| a == *b).count();
    let piece = || object([("noise", number(state)), ("bytes", number(len as i128))]);
    (len >= LEAST).then(|| (piece(), len))
}

fn repeat(bytes: &[u8], period: usize) -> Option<(Json, usize)> {
    let (first, after) = bytes.split_at_checked(period)?;
    let same = after.iter().zip(bytes).take_while(|(a, b)| a == b).count();
    let times = same / period + 1;
    let piece = || {
        object([
            ("repeat", text(&hex(first))),
            ("times", number(times as i128)),
        ])
    };
    (period * times >= LEAST + 2 * period && times > 2).then(|| (piece(), period * times))
}

/// Numbers of `size` bytes, each the one before and a step.
fn rising(bytes: &[u8], size: usize, high: bool) -> Option<(Json, usize)> {
    let read = |at: usize| {
        let mut eight = [0; 8];
        eight[..size].copy_from_slice(bytes.get(at..at + size)?);
        if high {
            eight[..size].reverse();
        }
        Some(u64::from_le_bytes(eight))
    };
    let (from, second) = (read(0)?, read(size)?);
    let step = i128::from(second) - i128::from(from);
    let told = |index: usize| u64::try_from(i128::from(from) + index as i128 * step).ok();
    let count = (1..)
        .take_while(|&index| read(index * size).is_some_and(|it| Some(it) == told(index)))
        .count()
        + 1;
    let piece = || {
        object([
            ("from", number(i128::from(from))),
            ("step", number(step)),
            ("count", number(count as i128)),
            ("size", number(size as i128)),
            ("order", text(if high { "high" } else { "low" })),
        ])
    };
    (step != 0 && count * size >= 2 * LEAST).then(|| (piece(), count * size))
}
