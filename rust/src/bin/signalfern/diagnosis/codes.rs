//! The value section of a damaged column of edition 4: the table, the codes, and whether both are worth it.

use super::values::{common_divisor, in_header, spare_bits};
use super::Finding;
use crate::codes::{entry_at, Coded};
use crate::header::{least, number_bytes, Header};
use crate::packing::Packing;

/// The first thing that is wrong with the table or with the codes. The bytes have the length that the header
/// tells, and the header keeps the rules.
pub fn find(header: &Header, bytes: &[u8]) -> Option<Finding> {
    let coded = Coded::of(header, bytes);
    let section_at = bytes.len() - header.values_in(bytes).len();
    let packed_at = bytes.len() - coded.packed.len();
    not_above(&coded, section_at)
        .or_else(|| past_the_table(&coded, packed_at))
        .or_else(|| spare_bits(header, Packing::Table, coded.packed, packed_at))
        .or_else(|| unused(&coded, section_at))
        .or_else(|| not_shorter(header, &coded.table))
}

fn in_table(code: usize, section_at: usize, why: String) -> Finding {
    Finding {
        at: (section_at + entry_at(code)) as u64,
        part: format!("entry {code} of the table"),
        why,
    }
}

/// An entry that is not above the one before.
fn not_above(coded: &Coded, section_at: usize) -> Option<Finding> {
    let index = coded.table.windows(2).position(|two| two[0] >= two[1])?;
    let (before, value) = (coded.table[index], coded.table[index + 1]);
    let why = format!("{value}, and it must be above the entry before it, {before}");
    Some(in_table(index + 1, section_at, why))
}

/// A code without an entry.
fn past_the_table(coded: &Coded, packed_at: usize) -> Option<Finding> {
    let mut codes = coded.codes().enumerate();
    let (index, code) = codes.find(|&(_, code)| code >= coded.entries)?;
    let entries = coded.entries;
    Some(Finding {
        at: (packed_at + index * coded.width as usize / 8) as u64,
        part: format!("value {index} (from 0)"),
        why: format!("its code is {code}, and the table has {entries} entries, from 0 on"),
    })
}

/// An entry that is no value.
fn unused(coded: &Coded, section_at: usize) -> Option<Finding> {
    let code = coded.uses().0.iter().position(|&values| values == 0)?;
    let why = format!("{}, and no pair has this value", coded.table[code]);
    Some(in_table(code, section_at, why))
}

/// A table that saves nothing.
fn not_shorter(header: &Header, table: &[i64]) -> Option<Finding> {
    let (here, plain) = (header.total(), plain_bytes(header, table)?);
    let why = format!(
        "4, and the table saves nothing: the column has {here} bytes, and in edition 1 it has {plain}"
    );
    (here >= plain).then(|| in_header(header, 0, why))
}

/// The bytes of the column in edition 1, where each value is an entry and each entry is a value.
fn plain_bytes(header: &Header, table: &[i64]) -> Option<u128> {
    let (smallest, greatest) = (*table.first()?, *table.last()?);
    let differences = table.iter().map(|entry| entry.abs_diff(smallest));
    let divisor = differences.fold(0, common_divisor).max(1);
    let width = Packing::HighFirst.least_width(greatest.abs_diff(smallest) / divisor);
    let value_bytes = (header.count * width).div_ceil(8);
    let [_, count, power, id_bytes, jump_count, ..] = header.numbers();
    let about_ids = [1, count, power, id_bytes, jump_count];
    let about_values = [width, least(smallest), divisor, value_bytes];
    let numbers = about_ids.iter().chain(&about_values);
    let head: usize = numbers.map(|&number| number_bytes(number)).sum();
    Some(head as u128 + u128::from(id_bytes) + u128::from(value_bytes))
}

#[cfg(test)]
mod tests {
    use signalfern::Edition;

    use super::super::tests::finding;

    /// So many values.
    const TABLE: [i64; 5] = [-5, 4, 1000, 2000, 1 << 40];

    /// A column with this table, and where its value section starts: 40 bytes of table, and 21 codes of 3 bits.
    fn column(values: impl Iterator<Item = i64>) -> (Vec<u8>, usize) {
        let ids: Vec<u32> = (0..21).collect();
        let values: Vec<i64> = values.take(21).collect();
        let column = signalfern::write_planned_to_vec(&ids, &values, &TABLE, 9).unwrap();
        let section = column.len() - 48;
        (column, section)
    }

    /// A byte of the section made another, and the byte and the words of the finding.
    const IN_SECTION: [(usize, u8, usize, &str); 6] = [
        // The top byte of entry 0, FF; the second of entry 2, 03; the top byte of entry 3, 00.
        (7, 0x7F, 8, "entry 1 of the table: 4, and it must be above the entry before it, 9223372036854775803"),
        (17, 0x0F, 24, "entry 3 of the table: 2000, and it must be above the entry before it, 4072"),
        (
            31,
            0x80,
            24,
            "entry 3 of the table: -9223372036854773808, and it must be above the entry before it, 1000",
        ),
        // The codes begin 000 001 01, and end 1 100 000 and a spare 0.
        (40, 0b1100_0101, 40, "value 0 (from 0): its code is 6, and the table has 5 entries, from 0 on"),
        (47, 0b1100_1010, 47, "value 20 (from 0): its code is 5, and the table has 5 entries, from 0 on"),
        (47, 0b1100_0001, 47, "spare bits after the last value: C1, and its 1 low bits must be 0"),
    ];

    #[test]
    fn tables_and_codes_that_cannot_be() {
        let (column, section) = column(TABLE.into_iter().cycle());
        assert_eq!(
            (column[section + 40], column[section + 47]),
            (0b0000_0101, 0b1100_0000)
        );
        for (at, byte, place, words) in IN_SECTION {
            let mut bytes = column.clone();
            bytes[section + at] = byte;
            let (found, text) = finding(&bytes);
            assert!(text.contains(words), "{at}: {text}");
            assert_eq!(found, (section + place) as u64, "{text}");
        }
    }

    #[test]
    fn an_entry_that_is_not_used() {
        // 1000 comes once, at the front: code 010 made 000.
        let others = [-5, 4, 2000, 1 << 40].into_iter().cycle();
        let (mut bytes, section) = column([1000].into_iter().chain(others));
        assert_eq!(bytes[section + 40] >> 5, 0b010);
        bytes[section + 40] &= 0b0001_1111;
        let (found, text) = finding(&bytes);
        assert_eq!(found, (section + 16) as u64, "{text}");
        assert!(
            text.contains("entry 2 of the table: 1000, and no pair has this value"),
            "{text}"
        );
    }

    /// Columns that are longer than edition 1's, or as long.
    #[test]
    fn a_table_that_saves_nothing() {
        // 9 bytes of header, 20 of ids, 26 of values: codes 0, 1, 0, 1, 2. Edition 1 has 12 bits for each.
        let plain = |values: &[i64]| {
            let ids: Vec<u32> = (0..values.len() as u32).collect();
            signalfern::write_to_vec(&ids, values, Edition::Plain, 9).unwrap()
        };
        let one = plain(&[5, 6, 5, 6, 3000]);
        let mut bytes = vec![4, 5, 9, 20, 0, 2, 0, 3, 26];
        bytes.extend(&one[9..29]);
        bytes.extend(
            [5, 6, 3000_i64]
                .iter()
                .flat_map(|entry| entry.to_le_bytes()),
        );
        bytes.extend([0x11, 0x80]);
        let words = "edition in the header: 4, and the table saves nothing: the column has 55 bytes, and in edition 1 \
                     it has 37";
        assert_eq!((one.len(), finding(&bytes)), (37, (0, words.to_string())));
        // Two values, with a smallest value and a divisor of 9 bytes each in edition 1's header.
        let one = plain(&[1 << 60, 1 << 61]);
        let mut bytes = vec![4, 2, 9, 14, 0, 1, 0, 2, 17];
        bytes.extend(&one[25..39]);
        bytes.extend(
            [1_i64 << 60, 1 << 61]
                .iter()
                .flat_map(|entry| entry.to_le_bytes()),
        );
        bytes.push(0x40);
        let (found, text) = finding(&bytes);
        assert_eq!((one.len(), found), (40, 0));
        assert!(
            text.ends_with("the column has 40 bytes, and in edition 1 it has 40"),
            "{text}"
        );
    }
}
