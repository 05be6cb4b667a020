//! The header: nine numbers in groups of seven bits.

use crate::values::Edition;
use crate::{power_allowed, Refusal, MAX_COUNT, MAX_JUMPS};

/// The longest header: nine numbers of ten bytes.
const LONGEST: usize = 90;

/// The header's numbers, and where the id section starts.
#[derive(Clone, Copy, Debug, Default, PartialEq, Eq)]
pub struct Column {
    /// The edition.
    pub edition: u64,
    /// n, the count of pairs.
    pub count: u64,
    /// p, the rank power.
    pub power: u64,
    /// L, the bytes of the id section.
    pub id_bytes: u64,
    /// J, the count of jump entries.
    pub jump_count: u64,
    /// w, the width of a stored number.
    pub width: u64,
    /// The smallest value as the header holds it: 2v, or -2v-1 below 0.
    pub smallest_number: u64,
    /// g, the divisor.
    pub divisor: u64,
    /// V, the bytes of the value section.
    pub value_bytes: u64,
    /// Bytes of the header.
    pub start: u64,
}

impl Column {
    /// The header's bytes, and how many they are.
    pub(crate) fn encode(&self) -> ([u8; LONGEST], usize) {
        let mut out = [0; LONGEST];
        let mut len = 0;
        let numbers = [
            self.edition,
            self.count,
            self.power,
            self.id_bytes,
            self.jump_count,
            self.width,
            self.smallest_number,
            self.divisor,
            self.value_bytes,
        ];
        for mut number in numbers {
            while number >= 0x80 {
                out[len] = number as u8 | 0x80;
                number >>= 7;
                len += 1;
            }
            out[len] = number as u8;
            len += 1;
        }
        (out, len)
    }

    /// "Header rules".
    fn keeps_the_rules(&self) -> bool {
        self.count <= MAX_COUNT
            && power_allowed(self.power)
            && self.jump_count <= MAX_JUMPS
            && self.divisor >= 1
            && self.id_bytes >= 6 + 8 * self.jump_count
            && Edition::numbered(self.edition).is_some_and(|it| it.keeps_the_rules(self))
    }

    /// Whether header + L + V is the byte count; the sum can pass 2^64.
    fn spans(&self, bytes: &[u8]) -> bool {
        self.start
            .checked_add(self.id_bytes)
            .and_then(|sum| sum.checked_add(self.value_bytes))
            == Some(bytes.len() as u64)
    }

    /// Holds any numbers to the header rules and to the byte count.
    pub(crate) fn opens(&self, bytes: &[u8]) -> Result<(), Refusal> {
        if !self.keeps_the_rules() {
            return Err(Refusal::HEADER);
        }
        if !self.spans(bytes) {
            return Err(Refusal::LENGTH);
        }
        Ok(())
    }

    /// The id section and the value section; the column spans the bytes.
    pub(crate) fn sections<'a>(&self, bytes: &'a [u8]) -> (&'a [u8], &'a [u8]) {
        bytes[self.start as usize..].split_at(self.id_bytes as usize)
    }

    pub(crate) fn smallest(&self) -> i64 {
        (self.smallest_number >> 1) as i64 ^ -((self.smallest_number & 1) as i64)
    }
}

/// 2v for v >= 0 and -2v-1 for v < 0.
pub(crate) fn zigzag(value: i64) -> u64 {
    ((value << 1) ^ (value >> 63)) as u64
}

/// Reads the number at a place of the bytes, and moves the place past it. What is refused goes by all
/// the bytes: SHORT tells how many they are, NUMBER the place of the byte that decided it.
pub(crate) fn take_number(bytes: &[u8], place: &mut usize) -> Result<u64, Refusal> {
    let mut number = 0;
    for i in 0..10 {
        let byte = *bytes.get(*place).ok_or(Refusal::short(bytes.len()))?;
        // One of several bytes doesn't end in 0; the tenth byte can only be 1.
        if i > 0 && byte == 0 || i == 9 && byte != 1 {
            return Err(Refusal::bad_number(*place));
        }
        number |= u64::from(byte & 0x7F) << (7 * i);
        *place += 1;
        if byte < 0x80 {
            break;
        }
    }
    Ok(number)
}

/// Reads the header: refusals 7 to 11.
pub fn open(bytes: &[u8]) -> Result<Column, Refusal> {
    let mut place = 0;
    let edition = take_number(bytes, &mut place)?;
    if Edition::numbered(edition).is_none() {
        return Err(Refusal::EDITION);
    }
    let mut next = || take_number(bytes, &mut place);
    let mut column = Column {
        edition,
        count: next()?,
        power: next()?,
        id_bytes: next()?,
        jump_count: next()?,
        width: next()?,
        smallest_number: next()?,
        divisor: next()?,
        value_bytes: next()?,
        start: 0,
    };
    column.start = place as u64;
    column.opens(bytes)?;
    Ok(column)
}

#[cfg(test)]
mod tests {
    use super::*;

    /// Nine numbers of a byte each, and the empty list's id section.
    const COLUMN: [u8; 23] = [
        1, 0, 9, 14, 1, 0, 0, 1, 0, 0xFF, 0x7F, 0, 0, 0xFF, 0xFF, 0, 0, 0, 0, 0, 0, 0, 0,
    ];

    /// The column with other bytes in place of the header number with this index.
    fn with(index: usize, number: &[u8]) -> Vec<u8> {
        [&COLUMN[..index], number, &COLUMN[index + 1..]].concat()
    }

    #[test]
    fn where_the_header_broke() {
        assert!(open(&COLUMN).is_ok());
        let groups = [0x80; 10];
        for index in 0..9 {
            for len in 0..10 {
                let cut = [&COLUMN[..index], &groups[..len]].concat();
                assert_eq!(open(&cut), Err(Refusal::new(7, (index + len) as u64)));
            }
            for len in 1..9 {
                let padded = with(index, &[&groups[..len], &[0]].concat());
                assert_eq!(open(&padded), Err(Refusal::new(8, (index + len) as u64)));
            }
            for tenth in (0..=255).filter(|&byte| byte != 1) {
                let tenth = [&groups[..9], &[tenth]].concat();
                let eleven = [&tenth[..], &[1]].concat();
                let ninth_after = Err(Refusal::new(8, index as u64 + 9));
                assert_eq!(open(&with(index, &tenth)), ninth_after);
                assert_eq!(open(&with(index, &eleven)), ninth_after);
            }
            // 2^63 is a number: what it says is refused later, or not.
            let greatest = open(&with(index, &[&groups[..9], &[1]].concat()));
            assert!(!matches!(greatest, Err(Refusal { number: 7 | 8, .. })));
        }
    }

    #[test]
    fn the_edition_comes_before_the_second_number() {
        for edition in [0, 5, 6, 0x7F] {
            assert_eq!(open(&[edition, 0x80, 0]), Err(Refusal::EDITION));
        }
        for edition in [1, 2, 3, 4] {
            assert_eq!(open(&[edition, 0x80, 0]), Err(Refusal::bad_number(2)));
        }
        assert_eq!(open(&[0x81, 0, 0x80, 0]), Err(Refusal::bad_number(1)));
    }
}
