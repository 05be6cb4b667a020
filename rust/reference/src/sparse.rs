//! Where a place stands among the entries of a sparse block. Entries are shorts, low byte first.

use core::cmp::Ordering;

use crate::ids::short;

/// Step 5 as document 02, [8], has it: over entries lo to hi (hi not included), probe (lo + hi) div
/// 2; equal stops, below `r` moves lo past the probe, above `r` moves hi to it.
///
/// Gives the index, if a probe was `r`, and how many were taken.
pub fn halve(entries: &[u8], r: u16) -> (Option<usize>, u64) {
    let (mut lo, mut hi) = (0, entries.len() / 2);
    let mut probes = 0;
    while lo < hi {
        let probe = (lo + hi) / 2;
        probes += 1;
        match short(&entries[2 * probe..]).cmp(&r) {
            Ordering::Equal => return (Some(probe), probes),
            Ordering::Less => lo = probe + 1,
            Ordering::Greater => hi = probe,
        }
    }
    (None, probes)
}

/// Step 5 as document 01 has it: scan to the first entry at or above `r`; found if equal. A look-up
/// goes by it no more, and the next candidate does (document 02, [1]).
pub fn scan(entries: &[u8], r: u16) -> Option<usize> {
    let mut entries = entries.chunks_exact(2).map(short);
    let index = entries.clone().position(|entry| entry >= r)?;
    (entries.nth(index) == Some(r)).then_some(index)
}
