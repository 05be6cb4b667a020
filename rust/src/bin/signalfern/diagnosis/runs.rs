//! The value section of a damaged column of edition 3: run by run.

use super::values::{common_divisor, in_header};
use super::Finding;
use crate::header::Header;
use crate::packing::{Packing, Stored};
use crate::runs::{directory_bytes, Run, GREATEST, SMALLEST, START, WIDTH};
use crate::text::counted;

/// The index of the divisor in the header.
const DIVISOR: usize = 7;
/// The greatest width.
const MOST: u64 = 64;

/// The first thing that is wrong with the runs, or with the header's divisor. The bytes have the length
/// that the header tells, and the header keeps the rules.
pub fn find(header: &Header, bytes: &[u8]) -> Option<Finding> {
    let section = header.values_in(bytes);
    let packed = section.get(directory_bytes(header.count) as usize..)?;
    let mut runs = Runs {
        divisor: header.divisor,
        section_at: (bytes.len() - section.len()) as u64,
        packed_at: (bytes.len() - packed.len()) as u64,
        packed,
        end: 0,
        first: None,
        common: 0,
    };
    for run in Run::all(header.count, section) {
        if let Err(finding) = runs.pass(&run) {
            return Some(finding);
        }
    }
    let left = packed.len() as u64 - runs.end;
    if left > 0 {
        return Some(Finding {
            at: runs.packed_at + runs.end,
            part: "after the last run".to_string(),
            why: format!("{} left over", counted(left, "byte")),
        });
    }
    let (divisor, common) = (header.divisor, runs.common.max(1));
    let why = match runs.common {
        0 => format!("{divisor}, and for equal values it is 1"),
        _ => format!(
            "{divisor}, and the greatest that divides all differences of values is {common}"
        ),
    };
    (divisor != common).then(|| in_header(header, DIVISOR, why))
}

/// What is known from the runs that were passed.
struct Runs<'a> {
    divisor: u64,
    /// Where the section stands in the file, and what follows the directory.
    section_at: u64,
    packed_at: u64,
    packed: &'a [u8],
    /// Where the last run ends, counted from the end of the directory.
    end: u64,
    /// The first value, and what divides each value's difference to it.
    first: Option<i64>,
    common: u64,
}

impl Runs<'_> {
    /// Passes over a run; stops at the first thing that is wrong with it.
    fn pass(&mut self, run: &Run) -> Result<(), Finding> {
        self.entry(run)?;
        let (smallest, greatest) = (run.smallest, run.greatest);
        let (least, most) = self.values(run)?;
        self.spare_bits(run)?;
        if least != smallest {
            let why = format!("{smallest}, and the smallest value is {least}");
            return Err(self.in_entry(run, SMALLEST, "smallest value", why));
        }
        if most != greatest {
            let why = format!("{greatest}, and the greatest value is {most}");
            return Err(self.in_entry(run, GREATEST, "greatest value", why));
        }
        let needed = Packing::Runs.least_width(most.abs_diff(least) / self.divisor);
        if needed != run.width {
            let why = format!("{}, and {needed} bits are enough", run.width);
            return Err(self.in_entry(run, WIDTH, "width", why));
        }
        self.end += run.bytes();
        Ok(())
    }

    /// What the entry says of the place of the run.
    fn entry(&self, run: &Run) -> Result<(), Finding> {
        let Run { start, width, .. } = *run;
        if start != self.end {
            let end = self.end;
            let why = format!("{start}, and the runs before it end at {end}");
            return Err(self.in_entry(run, START, "start", why));
        }
        if width > MOST {
            let why = format!("{width}, and at most {MOST} bits are allowed");
            return Err(self.in_entry(run, WIDTH, "width", why));
        }
        let (needed, left) = (run.bytes(), self.packed.len() as u64 - self.end);
        if needed > left {
            let values = counted(run.count, "value");
            let why =
                format!("{width}, and {values} of it take {needed} bytes, but {left} are left");
            return Err(self.in_entry(run, WIDTH, "width", why));
        }
        Ok(())
    }

    /// The smallest and the greatest value of a run whose bytes are there.
    fn values(&mut self, run: &Run) -> Result<(i64, i64), Finding> {
        let bytes = &self.packed[self.end as usize..][..run.bytes() as usize];
        let mut stored = Stored::new(bytes, Packing::Runs, run.width as u32);
        let (mut least, mut most) = (i64::MAX, i64::MIN);
        // Where no bits are stored, one value is all.
        let count = if run.width == 0 { 1 } else { run.count };
        for index in 0..count {
            let number = stored.next().unwrap_or_default();
            let offset = self.divisor.checked_mul(number);
            let value = offset.and_then(|offset| run.smallest.checked_add_unsigned(offset));
            let Some(value) = value else {
                return Err(self.too_great(run, index, number));
            };
            least = least.min(value);
            most = most.max(value);
            let first = *self.first.get_or_insert(value);
            self.common = common_divisor(self.common, value.abs_diff(first));
        }
        Ok((least, most))
    }

    fn too_great(&self, run: &Run, index: u64, stored: u64) -> Finding {
        let (smallest, divisor) = (run.smallest, self.divisor);
        Finding {
            at: self.packed_at + self.end + index * run.width / 8,
            part: format!("value {} (from 0)", run.first() + index),
            why: format!("{smallest} + {divisor} times {stored} does not fit in 64 bits"),
        }
    }

    /// The bits after the last value of a run.
    fn spare_bits(&self, run: &Run) -> Result<(), Finding> {
        let used = (run.count * run.width % 8) as u32;
        let at = self.end + run.bytes();
        if used == 0 {
            return Ok(());
        }
        let last = self.packed[at as usize - 1];
        let (spare, end) = Packing::Runs.spare(used);
        if last & spare == 0 {
            return Ok(());
        }
        Err(Finding {
            at: self.packed_at + at - 1,
            part: format!("spare bits after the last value of run {}", run.index),
            why: format!("{last:02X}, and its {} {end} bits must be 0", 8 - used),
        })
    }

    /// A wrong number in the directory.
    fn in_entry(&self, run: &Run, number: u64, name: &str, why: String) -> Finding {
        Finding {
            at: self.section_at + run.entry() + number,
            part: format!("{name} of run {} in the directory", run.index),
            why,
        }
    }
}

#[cfg(test)]
mod tests {
    use signalfern::Edition;

    use super::super::tests::finding;
    use crate::header::Header;

    /// Two runs: 16384 times 10, which take no bits; then 10, 40, 25, which are 0, 2, 1 at width 2, since g
    /// is 15.
    fn two_runs() -> (Vec<u8>, usize) {
        let mut values = vec![10; 16_384];
        values.extend([10, 40, 25]);
        let ids: Vec<u32> = (0..values.len() as u32).collect();
        let column = signalfern::write_to_vec(&ids, &values, Edition::Runs, 9).unwrap();
        // Two entries, and a byte of three numbers.
        let section = column.len() - 51;
        assert_eq!(column[section + 50..], [0b0010_0100]);
        (column, section)
    }

    /// A byte of the section made another, and the byte and the words of the finding.
    const IN_RUNS: [(usize, u8, usize, &str); 11] = [
        (0, 11, 8, "greatest value of run 0 in the directory: 10, and the greatest value is 11"),
        (8, 9, 8, "greatest value of run 0 in the directory: 9, and the greatest value is 10"),
        (16, 1, 16, "start of run 0 in the directory: 1, and the runs before it end at 0"),
        (
            24,
            1,
            24,
            "width of run 0 in the directory: 1, and 16384 values of it take 2048 bytes, but 1 are left",
        ),
        (24, 65, 24, "width of run 0 in the directory: 65, and at most 64 bits are allowed"),
        (41, 200, 41, "start of run 1 in the directory: 200, and the runs before it end at 0"),
        (49, 1, 50, "spare bits after the last value of run 1: 24, and its 5 low bits must be 0"),
        (49, 3, 49, "width of run 1 in the directory: 3, and 3 values of it take 2 bytes, but 1 are left"),
        (50, 0x25, 50, "spare bits after the last value of run 1: 25, and its 2 low bits must be 0"),
        (50, 0x64, 25, "smallest value of run 1 in the directory: 10, and the smallest value is 25"),
        // Stored 0, 1, 1.
        (50, 0x14, 33, "greatest value of run 1 in the directory: 40, and the greatest value is 25"),
    ];

    #[test]
    fn runs_that_cannot_be() {
        let (column, section) = two_runs();
        for (at, byte, place, words) in IN_RUNS {
            let mut bytes = column.clone();
            bytes[section + at] = byte;
            let (found, text) = finding(&bytes);
            assert!(text.contains(words), "{at}: {text}");
            assert_eq!(found, (section + place) as u64, "{text}");
        }
        // A width that is not the least: two bits for 0 and 1.
        let few = signalfern::write_to_vec(&[1, 2, 3], &[0, 1, 1], Edition::Runs, 9).unwrap();
        let start = few.len() - 26;
        let mut wide = few.clone();
        (wide[start + 24], wide[start + 25]) = (2, 0b0001_0100);
        let (at, text) = finding(&wide);
        assert_eq!(at, (start + 24) as u64, "{text}");
        assert!(
            text.contains("width of run 0 in the directory: 2, and 1 bits are enough"),
            "{text}"
        );
        // The divisor, header number 7: 5, where the values say 15.
        let mut other = column.clone();
        let divisor = Header::parse(&column).unwrap().starts[7];
        assert_eq!(column[divisor], 15);
        other[divisor] = 5;
        let (at, text) = finding(&other);
        assert_eq!(at, (section + 33) as u64, "{text}");
        // With the greatest value that this gives, the values' differences are left.
        other[section + 33] = 20;
        assert_eq!(signalfern::check(&other), Ok(16_387));
    }

    #[test]
    fn a_divisor_that_serves_not_all_runs() {
        // 7 in the first run, 10 and 40 in the second: g is 3, and 0 and 10 are stored.
        let mut values = vec![7; 16_384];
        values.extend([10, 40]);
        let ids: Vec<u32> = (0..values.len() as u32).collect();
        let column = signalfern::write_to_vec(&ids, &values, Edition::Runs, 9).unwrap();
        let divisor = Header::parse(&column).unwrap().starts[7];
        assert_eq!(column[divisor], 3);
        // The first run at 8: 2 and 32 are the differences now.
        let section = column.len() - 51;
        let mut bytes = column.clone();
        (bytes[section], bytes[section + 8]) = (8, 8);
        let (at, text) = finding(&bytes);
        assert_eq!(at, divisor as u64, "{text}");
        let words = "divisor (g) in the header: 3, and the greatest that divides all differences of values is 2";
        assert!(text.contains(words), "{text}");
        // All values equal.
        let mut equal = signalfern::write_to_vec(&[1, 2], &[5, 5], Edition::Runs, 9).unwrap();
        equal[7] = 2;
        assert!(finding(&equal)
            .1
            .contains("2, and for equal values it is 1"));
        // Something after the last run.
        let mut longer = signalfern::write_to_vec(&[1, 2], &[5, 5], Edition::Runs, 9).unwrap();
        longer[8] += 1;
        longer.push(0);
        let (at, text) = finding(&longer);
        assert_eq!(at as usize, longer.len() - 1);
        assert!(
            text.contains("after the last run: 1 byte left over"),
            "{text}"
        );
    }
}
