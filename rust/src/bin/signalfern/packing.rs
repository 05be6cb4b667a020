//! How stored numbers are packed in each edition, as the tool reads them to explain a file.

use std::ops::Range;

/// The order of the bits, and the widths.
#[derive(Clone, Copy, Debug, PartialEq, Eq)]
pub enum Packing {
    /// Edition 1: any width to 64, high bit first.
    HighFirst,
    /// Edition 2: Lucene 9's widths, low bit first.
    LowFirst,
    /// Edition 3: runs with a width each, high bit first. The header has none.
    Runs,
    /// Edition 4: codes, which are places in a table of values, high bit first.
    Table,
}

/// The greatest width of edition 1.
const MOST: u64 = 64;
/// The widths of edition 2, but for 0.
const LUCENE: [u64; 14] = [1, 2, 4, 8, 12, 16, 20, 24, 28, 32, 40, 48, 56, 64];

impl Packing {
    /// By the number of an edition, if it is one.
    pub fn of(edition: u64) -> Option<Self> {
        match edition {
            1 => Some(Self::HighFirst),
            2 => Some(Self::LowFirst),
            3 => Some(Self::Runs),
            4 => Some(Self::Table),
            _ => None,
        }
    }

    /// A few words about it.
    pub fn about(self) -> &'static str {
        match self {
            Self::HighFirst => "values in any width, high bit first",
            Self::LowFirst => "values as Lucene 9 packs them, low bit first",
            Self::Runs => "values in runs of 16384 with a width each, high bit first",
            Self::Table => "codes into a table of the distinct values, high bit first",
        }
    }

    /// Which widths a header may have, if not this one. In edition 4 the table says so.
    pub fn other_widths(self, width: u64) -> Option<String> {
        match self {
            Self::HighFirst if width > MOST => Some(format!("at most {MOST} bits are allowed")),
            Self::LowFirst if width != 0 && !LUCENE.contains(&width) => {
                let widths: Vec<String> = LUCENE.iter().map(u64::to_string).collect();
                let widths = widths.join(", ");
                Some(format!("edition 2 has 0, {widths} alone"))
            }
            Self::Runs if width != 0 => {
                Some("in edition 3 it is 0: its runs have their own".to_string())
            }
            _ => None,
        }
    }

    /// The least width for numbers up to this one.
    pub fn least_width(self, most: u64) -> u64 {
        let bits = u64::from(u64::BITS - most.leading_zeros());
        match self {
            Self::LowFirst if bits > 0 => (LUCENE.into_iter())
                .find(|&width| width >= bits)
                .unwrap_or(MOST),
            _ => bits,
        }
    }

    /// The weight of bit j of a section in its byte, as a power of two.
    fn weight(self, j: usize) -> usize {
        match self {
            Self::LowFirst => j % 8,
            _ => 7 - j % 8,
        }
    }

    /// The number that these bits of a section make.
    pub fn number(self, section: &[u8], bits: Range<usize>) -> u64 {
        let bit = |j: usize| u64::from(section[j / 8] >> self.weight(j) & 1);
        match self {
            Self::LowFirst => bits.rev().fold(0, |number, j| number << 1 | bit(j)),
            _ => bits.fold(0, |number, j| number << 1 | bit(j)),
        }
    }

    /// The bits of a byte of a section, its high one first, with those of a number between [ and ].
    pub fn marked(self, section: &[u8], at: usize, bits: &Range<usize>) -> String {
        // Weight and place within a byte go into each other by the same rule.
        let own = |weight: usize| bits.contains(&(8 * at + self.weight(weight)));
        let mut out = String::new();
        for weight in (0..8).rev() {
            if own(weight) && (weight == 7 || !own(weight + 1)) {
                out.push('[');
            }
            out.push(if section[at] >> weight & 1 == 1 {
                '1'
            } else {
                '0'
            });
            if own(weight) && (weight == 0 || !own(weight - 1)) {
                out.push(']');
            }
        }
        out
    }

    /// The spare bits of a last byte of which so many bits are used, 1 to 7, and which end they are at.
    pub fn spare(self, used: u32) -> (u8, &'static str) {
        match self {
            Self::LowFirst => (0xFF << used, "high"),
            _ => (0xFF >> used, "low"),
        }
    }
}

/// The stored numbers, one after another.
pub struct Stored<'a> {
    bytes: std::slice::Iter<'a, u8>,
    packing: Packing,
    width: u32,
    /// Bits that were read and not yet used: the lowest of `bits`.
    bits: u128,
    left: u32,
}

impl<'a> Stored<'a> {
    pub fn new(section: &'a [u8], packing: Packing, width: u32) -> Self {
        Self {
            bytes: section.iter(),
            packing,
            width,
            bits: 0,
            left: 0,
        }
    }

    pub fn next(&mut self) -> Option<u64> {
        if self.width == 0 {
            return Some(0);
        }
        while self.left < self.width {
            let byte = u128::from(*self.bytes.next()?);
            self.bits = match self.packing {
                Packing::LowFirst => self.bits | byte << self.left,
                _ => self.bits << 8 | byte,
            };
            self.left += 8;
        }
        self.left -= self.width;
        // The number is at the high end of the bits, or at the low one.
        let (number, rest) = match self.packing {
            Packing::LowFirst => (self.bits, self.bits >> self.width),
            _ => (self.bits >> self.left, self.bits & ((1 << self.left) - 1)),
        };
        self.bits = rest;
        let unused = 64 - self.width;
        Some((number as u64) << unused >> unused)
    }
}

#[cfg(test)]
mod tests {
    use super::*;

    #[test]
    fn numbers_and_their_bits() {
        // Stored 1, 1, 1, 0, 2, 2, 0, 0 at width 2 (documents 01 and 02).
        for (packing, section, marked) in [
            (Packing::HighFirst, [0x54, 0xA0], "[10]100000"),
            (Packing::LowFirst, [0x15, 0x0A], "000010[10]"),
            (Packing::Runs, [0x54, 0xA0], "[10]100000"),
            (Packing::Table, [0x54, 0xA0], "[10]100000"),
        ] {
            let number = |i: usize| packing.number(&section, 2 * i..2 * i + 2);
            assert!((0..8).map(number).eq([1, 1, 1, 0, 2, 2, 0, 0]));
            let mut stored = Stored::new(&section, packing, 2);
            let stored: Vec<u64> = std::iter::from_fn(|| stored.next()).collect();
            assert_eq!(stored, [1, 1, 1, 0, 2, 2, 0, 0]);
            assert_eq!(packing.marked(&section, 1, &(8..10)), marked);
            assert_eq!(packing.marked(&section, 1, &(0..2)).len(), 8);
            assert_eq!(packing.marked(&section, 1, &(6..20)).len(), 10);
        }
    }

    #[test]
    fn widths_and_spare_bits() {
        for packing in [Packing::HighFirst, Packing::LowFirst] {
            let widths = (0..100).filter(|&width| packing.other_widths(width).is_none());
            let least = (0..=64).map(|bits| u64::MAX.checked_shr(64 - bits).unwrap_or(0));
            let least = least.map(|most| packing.least_width(most));
            assert!(least
                .clone()
                .all(|width| packing.other_widths(width).is_none()));
            let mut least: Vec<u64> = least.collect();
            least.dedup();
            assert!(widths.eq(least), "{packing:?}");
        }
        let widths = (0..100).filter(|&width| Packing::Runs.other_widths(width).is_none());
        assert!(widths.eq([0]));
        assert_eq!(Packing::Runs.least_width(5), 3);
        assert_eq!(Packing::Table.least_width(255), 8);
        assert_eq!(Packing::HighFirst.spare(3), (0x1F, "low"));
        assert_eq!(Packing::LowFirst.spare(3), (0xF8, "high"));
    }
}
