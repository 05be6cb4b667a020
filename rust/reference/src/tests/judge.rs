//! A bare id section judged (document 02, [9]): sections put down as the document words them, and one
//! fault at a time.

use super::*;
use Judgement::{Accepted, Faulty, Header};

/// Blocks 0 (two ids), 2 (full) and 3 (one id): blocks at 0, 8 and 12, the end block at 18, five entries at 24.
fn section(high_first: bool) -> Vec<u8> {
    let mut out = Vec::new();
    let mut put = |number: usize, len: usize| {
        let mut bytes: Vec<u8> = (0..len).map(|i| (number >> (8 * i)) as u8).collect();
        if high_first {
            bytes.reverse();
        }
        out.extend(bytes);
    };
    for short in [0, 1, 5, 258, 2, 65_535, 3, 0, 9, 32_767, 0, 65_535] {
        put(short, 2);
    }
    for (ids, start) in [(0, 0), (2, 8), (2, 8), (65_538, 12), (65_539, 18)] {
        put(ids, 4);
        put(start, 4);
    }
    out
}

#[test]
fn a_small_section_in_both_orders() {
    for high_first in [false, true] {
        let bytes = section(high_first);
        for power in [0, 7, 15] {
            let judged = judge_section(&bytes, 5, power, high_first);
            assert_eq!(judged, Accepted(65_539));
        }
        for (jumps, power) in [(32_768, 0), (u64::MAX, 9), (5, 6), (5, 16), (5, 1 << 32)] {
            assert_eq!(judge_section(&bytes, jumps, power, high_first), Header);
        }
        for jumps in [0, 4, 6, 32_767] {
            let judged = judge_section(&bytes, jumps, 9, high_first);
            assert_eq!(judged, Faulty(JUMPS, 24), "{jumps}");
        }
        for cut in 0..bytes.len() {
            let at = [0, 8, 12, 18].into_iter().rfind(|at| *at <= cut).unwrap();
            let expected = match cut {
                0..24 => Faulty(CUT_OFF, at),
                _ => Faulty(JUMPS, 24 + (cut - 24) / 8 * 8),
            };
            let judged = judge_section(&bytes[..cut], 5, 9, high_first);
            assert_eq!(judged, expected, "{cut}");
        }
        let more = [&bytes[..], &[0]].concat();
        assert_eq!(
            judge_section(&more, 5, 9, high_first),
            Faulty(LEFT_OVER, 64)
        );
    }
}

const CUT_OFF: u64 = 1;
const JUMPS: u64 = 7;
const LEFT_OVER: u64 = 8;

/// A short put in place of another, and the reason with its place.
#[test]
fn one_short_changed() {
    for (at, short, expected) in [
        // Block numbers: as before, above the greatest, 32766, and an end block in the middle.
        (8, 0, Faulty(2, 8)),
        (12, 2, Faulty(2, 12)),
        (8, 32_766, Faulty(2, 8)),
        (8, 40_000, Faulty(2, 8)),
        (8, 32_767, Faulty(6, 8)),
        // Places.
        (6, 5, Faulty(3, 0)),
        (6, 4, Faulty(3, 0)),
        // The end block's count and place; another number makes it a block, and the entries are read as the next.
        (20, 1, Faulty(6, 18)),
        (22, 65_534, Faulty(6, 18)),
        (18, 32_765, Faulty(2, 24)),
        // Jump entries: ids and start.
        (24, 1, Faulty(7, 24)),
        (40, 3, Faulty(7, 40)),
        (60, 19, Faulty(7, 56)),
    ] {
        for high_first in [false, true] {
            let mut bytes = section(high_first);
            // Of an int the low short is the second, high byte first.
            let at = if at >= 24 && high_first { at + 2 } else { at };
            let short = short as u16;
            let new = if high_first {
                short.to_be_bytes()
            } else {
                short.to_le_bytes()
            };
            bytes[at..at + 2].copy_from_slice(&new);
            let judged = judge_section(&bytes, 5, 9, high_first);
            assert_eq!(judged, expected, "{at} {short} {high_first}");
        }
    }
}
