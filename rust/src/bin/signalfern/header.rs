//! The header as the tool reads it to explain a file. What is refused, the library decides.

use crate::packing::Packing;

/// The longest header: nine numbers of ten bytes.
pub const LONGEST: usize = 90;

/// What the header's numbers are called, in order.
pub const NAMES: [&str; 9] = [
    "edition",
    "pairs (n)",
    "rank power (p)",
    "id section (L)",
    "jump entries (J)",
    "width (w)",
    "smallest value",
    "divisor (g)",
    "value section (V)",
];

/// The numbers of a header.
#[derive(Clone, Debug, PartialEq, Eq)]
pub struct Header {
    pub edition: u64,
    pub count: u64,
    pub power: u64,
    pub id_bytes: u64,
    pub jump_count: u64,
    pub width: u64,
    /// The smallest value as the header holds it.
    pub least: u64,
    pub divisor: u64,
    pub value_bytes: u64,
    /// Where each number starts, and where the id section does.
    pub starts: [usize; 10],
}

/// A header that cannot be read to its end: the index of the number that cannot, from 0, and where it
/// starts. Why, the library tells.
#[derive(Debug, PartialEq, Eq)]
pub struct Unreadable {
    pub index: usize,
    pub at: usize,
    /// The numbers before it.
    pub numbers: Vec<u64>,
}

impl Header {
    /// Reads nine numbers.
    pub fn parse(bytes: &[u8]) -> Result<Self, Unreadable> {
        let (mut numbers, mut starts) = ([0; 9], [0; 10]);
        for index in 0..9 {
            let at = starts[index];
            let Some((number, len)) = number(&bytes[at..]) else {
                let numbers = numbers[..index].to_vec();
                return Err(Unreadable { index, at, numbers });
            };
            numbers[index] = number;
            starts[index + 1] = at + len;
        }
        let [edition, count, power, id_bytes, jump_count, width, least, divisor, value_bytes] =
            numbers;
        Ok(Self {
            edition,
            count,
            power,
            id_bytes,
            jump_count,
            width,
            least,
            divisor,
            value_bytes,
            starts,
        })
    }

    pub fn numbers(&self) -> [u64; 9] {
        [
            self.edition,
            self.count,
            self.power,
            self.id_bytes,
            self.jump_count,
            self.width,
            self.least,
            self.divisor,
            self.value_bytes,
        ]
    }

    /// The bytes of the header.
    pub fn len(&self) -> usize {
        self.starts[9]
    }

    /// The bytes of the whole column that the header tells.
    pub fn total(&self) -> u128 {
        self.len() as u128 + u128::from(self.id_bytes) + u128::from(self.value_bytes)
    }

    pub fn smallest(&self) -> i64 {
        smallest(self.least)
    }

    /// How its edition packs stored numbers, if it is one.
    pub fn packing(&self) -> Option<Packing> {
        Packing::of(self.edition)
    }

    /// The bytes of the value section, as far as they are there; of a header that keeps the rules.
    pub fn values_in<'a>(&self, bytes: &'a [u8]) -> &'a [u8] {
        let start = usize::try_from(self.id_bytes).ok();
        let start = start.and_then(|it| it.checked_add(self.len()));
        start
            .and_then(|start| bytes.get(start..))
            .unwrap_or_default()
    }
}

/// The smallest value that a header number stands for.
pub fn smallest(least: u64) -> i64 {
    (least >> 1) as i64 ^ -((least & 1) as i64)
}

/// The header number of a smallest value.
pub fn least(smallest: i64) -> u64 {
    (smallest << 1 ^ smallest >> 63) as u64
}

/// The bytes that a number takes in a header.
pub fn number_bytes(number: u64) -> usize {
    (number.max(1).ilog2() / 7 + 1) as usize
}

/// The number at the front, in groups of seven bits, and its bytes; if it is whole, in its shortest
/// form, and below 2^64.
pub fn number(bytes: &[u8]) -> Option<(u64, usize)> {
    let mut number = 0;
    for (at, &byte) in bytes.iter().take(10).enumerate() {
        if at == 9 && byte != 1 {
            return None;
        }
        number |= u64::from(byte & 0x7F) << (7 * at);
        if byte < 0x80 {
            let shortest = at == 0 || byte != 0;
            return shortest.then_some((number, at + 1));
        }
    }
    None
}

#[cfg(test)]
mod tests {
    use signalfern::Edition;

    use super::*;

    #[test]
    fn a_header() {
        let column =
            signalfern::write_to_vec(&[0, 2, 7], &[150, 140, 135], Edition::Plain, 9).unwrap();
        let header = Header::parse(&column).unwrap();
        assert_eq!(header.numbers(), [1, 3, 9, 16, 0, 2, 270, 5, 1]);
        assert_eq!((header.len(), header.total()), (10, 27));
        assert_eq!(header.smallest(), 135);
    }

    #[test]
    fn numbers_there_and_back() {
        for value in [0, -1, 1, 135, i64::MAX, i64::MIN] {
            assert_eq!(smallest(least(value)), value);
        }
        for (value, bytes) in [(0, 1), (1, 1), (127, 1), (128, 2), (16_383, 2), (16_384, 3)] {
            assert_eq!(number_bytes(value), bytes);
        }
        assert_eq!(number_bytes(u64::MAX >> 1), 9);
        assert_eq!(number_bytes(u64::MAX), 10);
    }

    #[test]
    fn numbers_that_cannot_be() {
        let unreadable = |bytes: &[u8]| Header::parse(bytes).unwrap_err();
        for (bytes, index, at) in [
            (&b""[..], 0, 0),
            (b"\x80\x00", 0, 0),
            (&[0xFF; 11], 0, 0),
            (b"\x01", 1, 1),
            (b"\x01\x80", 1, 1),
            (b"\x01\x83\x01\x80\x00", 2, 3),
        ] {
            let found = unreadable(bytes);
            assert_eq!((found.index, found.at), (index, at), "{bytes:02X?}");
        }
        let greatest = [&[0xFF; 9][..], &[1]].concat();
        assert_eq!(unreadable(&greatest).numbers, [u64::MAX]);
    }
}
