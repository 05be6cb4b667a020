//! The header rules, as the tool tells which one is broken. What is refused, the library decides.

use signalfern::{power_allowed, MAX_COUNT};

use crate::header::Header;
use crate::packing::Packing;
use crate::text::counted;
use crate::{codes, runs};

/// Bytes of the end block.
const END: u128 = 6;
const MOST_JUMPS: u64 = 32_767;

impl Header {
    /// The first rule that is broken: the index of a number in it, and a sentence.
    pub fn broken_rule(&self) -> Option<(usize, String)> {
        self.broken_limit().or_else(|| self.broken_size())
    }

    fn broken_limit(&self) -> Option<(usize, String)> {
        let (count, power, jumps, width) = (self.count, self.power, self.jump_count, self.width);
        if count > MAX_COUNT {
            let why = format!("{count} pairs, and at most {MAX_COUNT} are allowed");
            return Some((1, why));
        }
        if !u32::try_from(power).is_ok_and(power_allowed) {
            let why = format!("rank power {power}, and 0 or 7 to 15 are allowed");
            return Some((2, why));
        }
        if jumps > MOST_JUMPS {
            let why = format!("{jumps} jump entries, and at most {MOST_JUMPS} are allowed");
            return Some((4, why));
        }
        if let Some(others) = self.packing().and_then(|it| it.other_widths(width)) {
            return Some((5, format!("width {width}, and {others}")));
        }
        match self.packing() {
            Some(Packing::Table) => self.broken_table(),
            Some(Packing::Runs) if self.least != 0 => {
                Some(self.no_smallest("3 it is 0: its runs have their own"))
            }
            _ => {
                let why = "divisor 0, and it must be at least 1".to_string();
                (self.divisor == 0).then_some((7, why))
            }
        }
    }

    fn no_smallest(&self, edition: &str) -> (usize, String) {
        let smallest = self.smallest();
        (
            6,
            format!("smallest value {smallest}, and in edition {edition}"),
        )
    }

    /// What edition 4 says of its table.
    fn broken_table(&self) -> Option<(usize, String)> {
        let (entries, width) = (self.divisor, self.width);
        if !(codes::LEAST..=codes::MOST).contains(&entries) {
            let (least, most) = (codes::LEAST, codes::MOST);
            let why = format!("a table count of {entries}, and {least} to {most} are allowed");
            return Some((7, why));
        }
        let needed = codes::width_for(entries);
        if width != needed {
            let why = format!("width {width}, and codes of {entries} entries take {needed} bits");
            return Some((5, why));
        }
        (self.least != 0).then(|| self.no_smallest("4 it is 0: the table has all values"))
    }

    fn broken_size(&self) -> Option<(usize, String)> {
        let (count, jumps, width) = (self.count, self.jump_count, self.width);
        let (id_bytes, value_bytes) = (self.id_bytes, self.value_bytes);
        let needed = END + 8 * u128::from(jumps);
        if u128::from(id_bytes) < needed {
            let why = format!(
                "an id section of {id_bytes} bytes, and {jumps} jump entries need at least {needed}"
            );
            return Some((3, why));
        }
        if self.packing() == Some(Packing::Runs) {
            let (runs, needed) = (runs::count_of(count), runs::directory_bytes(count));
            let why = format!(
                "a value section of {value_bytes} bytes, and the directory of {} takes {needed}",
                counted(runs, "run")
            );
            return (value_bytes < needed).then_some((8, why));
        }
        let packed = (u128::from(count) * u128::from(width)).div_ceil(8);
        let (needed, table) = match self.packing() {
            Some(Packing::Table) => {
                let (entries, table) = (self.divisor, codes::table_bytes(self.divisor));
                (
                    packed + u128::from(table),
                    format!("a table of {entries} entries and "),
                )
            }
            _ => (packed, String::new()),
        };
        let why = format!(
            "a value section of {value_bytes} bytes, and {table}{count} pairs of {width} bits take {needed}"
        );
        (u128::from(value_bytes) != needed).then_some((8, why))
    }
}

#[cfg(test)]
mod tests {
    use signalfern::Edition;

    use super::*;

    #[test]
    fn editions_1_to_3() {
        let column =
            signalfern::write_to_vec(&[0, 2, 7], &[150, 140, 135], Edition::Plain, 9).unwrap();
        let header = Header::parse(&column).unwrap();
        assert_eq!(header.broken_rule(), None);
        let mut wrong = header.clone();
        wrong.width = 3;
        let (index, sentence) = wrong.broken_rule().unwrap();
        assert_eq!(index, 8);
        assert!(sentence.contains("3 pairs of 3 bits take 2"), "{sentence}");
        // Edition 2 has no width of 3 bits.
        wrong.edition = 2;
        let (index, sentence) = wrong.broken_rule().unwrap();
        assert_eq!(index, 5);
        assert!(
            sentence.starts_with("width 3, and edition 2 has 0, 1, 2, 4, 8, "),
            "{sentence}"
        );
        // Edition 3 has neither a width nor a smallest value here, and a directory.
        for (width, least, index, words) in [
            (3, 270, 5, "width 3, and in edition 3 it is 0"),
            (0, 270, 6, "smallest value 135, and in edition 3 it is 0"),
            (
                0,
                0,
                8,
                "a value section of 1 bytes, and the directory of 1 run takes 25",
            ),
        ] {
            (wrong.edition, wrong.width, wrong.least) = (3, width, least);
            let (found, sentence) = wrong.broken_rule().unwrap();
            assert_eq!(found, index);
            assert!(sentence.contains(words), "{sentence}");
        }
        wrong.value_bytes = 25;
        assert_eq!(wrong.broken_rule(), None);
    }

    #[test]
    fn edition_4() {
        let (ids, values) = ([0, 2, 7, 9], [1, i64::MIN, 0, 1]);
        let column = signalfern::write_planned_to_vec(&ids, &values, &[i64::MIN, 0, 1], 9);
        let header = Header::parse(&column.unwrap()).unwrap();
        assert_eq!(header.numbers(), [4, 4, 9, 18, 0, 2, 0, 3, 25]);
        assert_eq!(header.broken_rule(), None);
        for (entries, width, least, value_bytes, index, words) in [
            (1, 0, 0, 8, 7, "a table count of 1, and 2 to 256 are allowed"),
            (0, 2, 1, 25, 7, "a table count of 0, and 2 to 256 are allowed"),
            (257, 9, 0, 25, 7, "a table count of 257, and 2 to 256 are allowed"),
            (3, 1, 1, 25, 5, "width 1, and codes of 3 entries take 2 bits"),
            (5, 2, 0, 25, 5, "width 2, and codes of 5 entries take 3 bits"),
            (3, 2, 1, 25, 6, "smallest value -1, and in edition 4 it is 0: the table has all values"),
            (
                3,
                2,
                0,
                24,
                8,
                "a value section of 24 bytes, and a table of 3 entries and 4 pairs of 2 bits take 25",
            ),
        ] {
            let mut wrong = header.clone();
            (wrong.divisor, wrong.width) = (entries, width);
            (wrong.least, wrong.value_bytes) = (least, value_bytes);
            let (found, sentence) = wrong.broken_rule().unwrap();
            assert_eq!(found, index, "{sentence}");
            assert_eq!(sentence, words);
        }
    }
}
