//! stats: how the values of a column are distributed.

use std::fmt::Write;

use crate::arguments::Arguments;
use crate::failure::Failure;
use crate::json::Object;
use crate::load::Loaded;
use crate::output::print;
use crate::scan::{Scan, Stop};
use crate::text::counted;

/// The quantiles that are told, in parts of 1000.
const PARTS: [u64; 9] = [1, 10, 50, 250, 500, 750, 950, 990, 999];
/// Ranges of the histogram, if no other number is told, and at most.
const BINS: usize = 20;
const MOST_BINS: usize = 1000;
/// Signs of the longest bar.
const BAR: u128 = 40;
/// Bits of a value that one pass settles.
const DIGIT: u32 = 16;

pub fn run(mut arguments: Arguments) -> Result<(), Failure> {
    let rule = format!("count of ranges: 1 to {MOST_BINS}");
    let bins = arguments.number("bins", &rule)?.unwrap_or(BINS);
    if !(1..=MOST_BINS).contains(&bins) {
        return Err(arguments.usage(format!("`{bins}` is no {rule}")));
    }
    let given = arguments.digest("digest")?;
    let path = arguments.file("column")?;
    arguments.finish()?;
    let loaded = Loaded::sound(&path, given)?;
    let scan = Scan::of(&loaded)?;
    let stats = Stats::of(&scan, bins).map_err(|stop| scan.failure(stop))?;
    match arguments.has("json") {
        true => print(&stats.json(&loaded).line()),
        false => print(&stats.text(&loaded.name)),
    }
}

/// How the values are distributed. Empty lists where there is no value.
#[derive(Debug, Default, PartialEq, Eq)]
pub struct Stats {
    pub count: u64,
    pub smallest: i64,
    pub greatest: i64,
    sum: i128,
    /// Parts of 1000, and the value of each.
    pub quantiles: Vec<(u64, i64)>,
    pub bins: Vec<Bin>,
}

/// Values from low to high, both included, and how many there are.
#[derive(Clone, Copy, Debug, PartialEq, Eq)]
pub struct Bin {
    pub low: i64,
    pub high: i64,
    pub count: u64,
}

impl Stats {
    /// Goes through the column some times, in little memory: once for the ends and the sum, once for the ranges, and
    /// once for every 16 bits that its values span, for the quantiles.
    pub fn of(scan: &Scan, bins: usize) -> Result<Self, Stop> {
        let mut stats = Self {
            smallest: i64::MAX,
            greatest: i64::MIN,
            ..Self::default()
        };
        for pair in scan.pairs() {
            let (_, value) = pair?;
            stats.count += 1;
            stats.smallest = stats.smallest.min(value);
            stats.greatest = stats.greatest.max(value);
            stats.sum += i128::from(value);
        }
        if stats.count == 0 {
            return Ok(Self::default());
        }
        stats.fill_bins(scan, bins)?;
        stats.fill_quantiles(scan)?;
        Ok(stats)
    }

    /// How far a value lies above the smallest.
    fn above(&self, value: i64) -> u64 {
        value.wrapping_sub(self.smallest) as u64
    }

    /// As many ranges of equal width as were told, or fewer where there are fewer values between the ends.
    fn fill_bins(&mut self, scan: &Scan, bins: usize) -> Result<(), Stop> {
        let span = u128::from(self.above(self.greatest)) + 1;
        let width = span.div_ceil(bins as u128);
        let bins = span.div_ceil(width) as usize;
        let mut counts = vec![0; bins];
        for pair in scan.pairs() {
            counts[(u128::from(self.above(pair?.1)) / width) as usize] += 1;
        }
        let smallest = i128::from(self.smallest);
        let bin = |(index, count): (usize, u64)| {
            let low = smallest + (index as u128 * width) as i128;
            let high = (low + width as i128 - 1).min(i128::from(self.greatest));
            Bin {
                low: low as i64,
                high: high as i64,
                count,
            }
        };
        self.bins = counts.into_iter().enumerate().map(bin).collect();
        Ok(())
    }

    /// Each pass counts, for every quantile that is not settled yet, the next digit of the values that share the
    /// digits before it.
    fn fill_quantiles(&mut self, scan: &Scan) -> Result<(), Stop> {
        let bits = 64 - self.above(self.greatest).leading_zeros();
        let mut shift = bits.next_multiple_of(DIGIT);
        // Of each quantile: the digits above `shift`, and its rank among the values that have them.
        let mut sought: Vec<(u64, u64)> = PARTS
            .iter()
            .map(|part| (0, (part * self.count).div_ceil(1000) - 1))
            .collect();
        while shift > 0 {
            let mut fronts: Vec<u64> = sought.iter().map(|(front, _)| *front).collect();
            fronts.dedup();
            let mut counts = vec![0_u64; fronts.len() << DIGIT];
            let front_of = move |above: u64| above.checked_shr(shift).unwrap_or(0);
            shift -= DIGIT;
            for pair in scan.pairs() {
                let above = self.above(pair?.1);
                if let Ok(index) = fronts.binary_search(&front_of(above)) {
                    let digit = above >> shift & ((1 << DIGIT) - 1);
                    counts[index << DIGIT | digit as usize] += 1;
                }
            }
            for (front, rank) in &mut sought {
                let index = fronts.partition_point(|it| it < front);
                let row = &counts[index << DIGIT..(index + 1) << DIGIT];
                let mut digit = 0;
                while *rank >= row[digit] {
                    *rank -= row[digit];
                    digit += 1;
                }
                *front = *front << DIGIT | digit as u64;
            }
        }
        let value = |above: u64| self.smallest.wrapping_add_unsigned(above);
        self.quantiles = (PARTS.into_iter().zip(sought))
            .map(|(part, (above, _))| (part, value(above)))
            .collect();
        Ok(())
    }

    /// The mean to three digits, rounded to the nearest.
    pub fn mean(&self) -> String {
        let count = i128::from(self.count.max(1));
        let thousandths = (2000 * self.sum + count * self.sum.signum()) / (2 * count);
        let sign = if thousandths < 0 { "-" } else { "" };
        let size = thousandths.unsigned_abs();
        format!("{sign}{}.{:03}", size / 1000, size % 1000)
    }

    fn text(&self, name: &str) -> String {
        let mut out = format!("{name}: {}\n", counted(self.count, "pair"));
        if self.count == 0 {
            return out;
        }
        // Writing to a string cannot fail.
        let mut row = |name: &str, value: &str| {
            let _ = writeln!(out, "  {name:<9} {value:>20}");
        };
        row("smallest", &self.smallest.to_string());
        for (part, value) in &self.quantiles {
            row(&percent(*part), &value.to_string());
        }
        row("greatest", &self.greatest.to_string());
        row("mean", &self.mean());
        let most = self
            .bins
            .iter()
            .map(|bin| bin.count)
            .max()
            .unwrap_or(0)
            .max(1);
        let _ = writeln!(
            out,
            "\nValues in {} of equal width",
            counted(self.bins.len() as u64, "range")
        );
        for bin in &self.bins {
            let bar = (u128::from(bin.count) * BAR).div_ceil(most.into());
            let bar = "#".repeat(bar as usize);
            let line = format!(
                "  {:>20} to {:>20} {:>12}  {bar}",
                bin.low, bin.high, bin.count
            );
            let _ = writeln!(out, "{}", line.trim_end());
        }
        out
    }

    fn json(&self, loaded: &Loaded) -> Object {
        let object = Object::new().file("file", loaded.path());
        let object = object.number("pairs", self.count);
        if self.count == 0 {
            return object;
        }
        let quantile = |&(part, value): &(u64, i64)| {
            let part = format!("{}", part as f64 / 1000.0);
            Object::new().text("part", &part).long("value", value)
        };
        let bin = |bin: &Bin| {
            let object = Object::new().long("low", bin.low).long("high", bin.high);
            object.number("count", bin.count)
        };
        (object
            .long("smallest", self.smallest)
            .long("greatest", self.greatest))
        .text("mean", &self.mean())
        .objects("quantiles", self.quantiles.iter().map(quantile))
        .objects("histogram", self.bins.iter().map(bin))
    }
}

/// A part of 1000 as a person writes it.
pub fn percent(part: u64) -> String {
    match part {
        500 => "median".to_string(),
        _ if part % 10 == 0 => format!("{}%", part / 10),
        _ => format!("{}.{}%", part / 10, part % 10),
    }
}

#[cfg(test)]
mod tests {
    use super::*;

    /// Beside a sorted list, for values near and far.
    #[test]
    fn quantiles_are_those_of_the_sorted_list() {
        let spread = |step: i64, i: i64| {
            i.wrapping_mul(step)
                .wrapping_mul(0x9E37_79B9_7F4A_7C15_u64 as i64)
        };
        let lists: Vec<Vec<i64>> = vec![
            vec![7],
            vec![5, 5, 5],
            (0..1000).map(|i| i * i % 997).collect(),
            (0..5000).map(|i| spread(1, i)).collect(),
            (0..3000).map(|i| spread(3, i) >> 20).collect(),
            vec![i64::MIN, i64::MAX, 0, -1],
        ];
        for values in lists {
            let ids: Vec<u32> = (0..values.len() as u32).collect();
            let bytes =
                signalfern::write_to_vec(&ids, &values, signalfern::Edition::Plain, 9).unwrap();
            let folder =
                std::env::temp_dir().join(format!("signalfern-stats-{}", std::process::id()));
            std::fs::write(&folder, bytes).unwrap();
            let loaded = Loaded::sound(&folder, None).unwrap();
            let stats = Stats::of(&Scan::of(&loaded).unwrap(), 20).unwrap();
            std::fs::remove_file(&folder).unwrap();
            let mut sorted = values.clone();
            sorted.sort_unstable();
            for (part, value) in &stats.quantiles {
                // The smallest value that so many do not exceed.
                let least = (*part as usize * sorted.len()).div_ceil(1000);
                assert_eq!(sorted[least - 1], *value, "{part} of {}", sorted.len());
            }
            assert_eq!(
                (stats.smallest, stats.greatest),
                (sorted[0], sorted[sorted.len() - 1])
            );
            assert_eq!(
                stats.bins.iter().map(|bin| bin.count).sum::<u64>(),
                values.len() as u64
            );
            for bin in &stats.bins {
                let there = values
                    .iter()
                    .filter(|value| (bin.low..=bin.high).contains(value));
                assert_eq!(there.count() as u64, bin.count, "{bin:?}");
            }
        }
    }

    #[test]
    fn means_are_rounded() {
        let mean = |sum, count| {
            Stats {
                sum,
                count,
                ..Stats::default()
            }
            .mean()
        };
        assert_eq!(mean(10, 4), "2.500");
        assert_eq!(mean(-10, 4), "-2.500");
        assert_eq!(mean(2, 3), "0.667");
        assert_eq!(mean(-1, 3), "-0.333");
        assert_eq!(mean(-1, 3000), "0.000");
        assert_eq!(mean(i128::from(i64::MAX) * 2, 2), "9223372036854775807.000");
    }
}
