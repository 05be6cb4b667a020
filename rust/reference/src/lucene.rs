//! "Lucene 9 packing" (document 02, [6]), bit by bit as the request words it.

/// The widths that Lucene 9 knows.
const WIDTHS: [u32; 14] = [1, 2, 4, 8, 12, 16, 20, 24, 28, 32, 40, 48, 56, 64];

/// Whether a header may hold this width: one of these, or 0 as before.
pub(crate) fn allows(width: u64) -> bool {
    width == 0 || WIDTHS.iter().any(|&known| u64::from(known) == width)
}

/// The least of them that suffices for numbers up to this one; the last takes all.
pub(crate) fn width_for(most: u64) -> u32 {
    if most == 0 {
        return 0;
    }
    let suffices = |width: &u32| u128::from(most) < 1 << width;
    WIDTHS.into_iter().find(suffices).unwrap_or(64)
}

/// Value i starts at bit iw, its lowest bit first; bit j has weight 2^(j mod 8) in byte j div 8.
/// Nothing stands after the last byte, and the bits that are left of it are 0.
pub(crate) fn pack(out: &mut [u8], width: u32, stored: impl Iterator<Item = u64>) {
    out.fill(0);
    for (i, number) in stored.enumerate() {
        for k in 0..width as usize {
            let j = i * width as usize + k;
            let bit = number >> k & 1;
            out[j / 8] |= (bit as u8) << (j % 8);
        }
    }
}

/// Stored number `i`.
pub(crate) fn fetch(section: &[u8], width: u32, i: usize) -> u64 {
    (0..width as usize).fold(0, |number, k| {
        let j = i * width as usize + k;
        let bit = section[j / 8] >> (j % 8) & 1;
        number | u64::from(bit) << k
    })
}

/// Whether the bits after so many numbers are 0, up to the end of the last byte.
pub(crate) fn spare_clear(section: &[u8], count: usize, width: u32) -> bool {
    let spare = section.len() * 8 - count * width as usize;
    section
        .last()
        .is_none_or(|last| last & !(0xFF_u8 >> spare) == 0)
}

#[cfg(test)]
mod tests {
    use super::*;

    #[test]
    fn the_words_of_the_request() {
        let stored = [1, 1, 1, 0, 2, 2, 0, 0];
        let mut out = [0xFF; 2];
        pack(&mut out, 2, stored.into_iter());
        assert_eq!(out, [0x15, 0x0A]);
        let fetched = (0..8).map(|i| fetch(&out, 2, i));
        assert!(fetched.eq(stored));
    }

    #[test]
    fn least_widths_at_their_borders() {
        assert_eq!(width_for(0), 0);
        for pair in [0].iter().chain(&WIDTHS).zip(&WIDTHS) {
            let (&below, &width) = pair;
            // One more than what fits below, and the greatest that fits.
            assert_eq!(width_for(1 << below), width);
            assert_eq!(width_for(u64::MAX >> (64 - width)), width);
        }
        let allowed: Vec<u64> = (0..70).filter(|&width| allows(width)).collect();
        assert_eq!(
            allowed,
            [0, 1, 2, 4, 8, 12, 16, 20, 24, 28, 32, 40, 48, 56, 64]
        );
    }
}
