//! The value section of a damaged column.

use super::{codes, runs, Finding};
use crate::header::{Header, NAMES};
use crate::packing::{Packing, Stored};

/// What the stored numbers are, taken together.
#[derive(Default)]
struct Summary {
    least: Option<u64>,
    greatest: u64,
    /// Their greatest common divisor.
    divisor: u64,
}

/// A number of the header that the values do not bear out.
pub fn in_header(header: &Header, index: usize, why: String) -> Finding {
    let at = header.starts[index] as u64;
    let part = format!("{} in the header", NAMES[index]);
    Finding { at, part, why }
}

/// The first thing that is wrong with the values, or with the header's numbers about them.
pub fn find(header: &Header, bytes: &[u8]) -> Option<Finding> {
    let in_header = |index: usize, why: String| Some(in_header(header, index, why));
    let (smallest, divisor, width) = (header.smallest(), header.divisor, header.width);
    let packing = header.packing()?;
    match packing {
        Packing::Runs => return runs::find(header, bytes),
        Packing::Table => return codes::find(header, bytes),
        Packing::HighFirst | Packing::LowFirst => {}
    }
    if header.count == 0 && header.least != 0 {
        return in_header(6, format!("{smallest}, and without pairs it is 0"));
    }
    if width == 0 {
        let why = format!("{divisor}, and for equal values it is 1");
        return (divisor != 1).then(|| in_header(7, why)).flatten();
    }
    let start = header.len() + usize::try_from(header.id_bytes).ok()?;
    let section = bytes.get(start..)?;
    let summary = match sum_up(header, packing, section) {
        Ok(summary) => summary,
        Err((index, stored)) => return Some(too_great(header, start, index, stored)),
    };
    if let Some(finding) = spare_bits(header, packing, section, start) {
        return Some(finding);
    }
    let least = summary.least.unwrap_or(0);
    if least != 0 {
        let why = format!("{smallest}, and no value is so small (the least stored is {least})");
        return in_header(6, why);
    }
    let needed = packing.least_width(summary.greatest);
    if needed < width {
        let greatest = summary.greatest;
        let why = format!("{width}, and the greatest stored, {greatest}, needs {needed} bits");
        return in_header(5, why);
    }
    (summary.divisor != 1).then(|| multiples(header, start, summary.divisor))
}

/// Passes over all stored numbers; stops at one whose value does not fit in 64 bits.
fn sum_up(header: &Header, packing: Packing, section: &[u8]) -> Result<Summary, (u64, u64)> {
    let mut summary = Summary::default();
    let mut stored = Stored::new(section, packing, header.width as u32);
    for index in 0..header.count {
        let Some(number) = stored.next() else {
            break;
        };
        let offset = header.divisor.checked_mul(number);
        let value = offset.and_then(|offset| header.smallest().checked_add_unsigned(offset));
        if value.is_none() {
            return Err((index, number));
        }
        summary.least = Some(summary.least.map_or(number, |least| least.min(number)));
        summary.greatest = summary.greatest.max(number);
        summary.divisor = common_divisor(summary.divisor, number);
    }
    Ok(summary)
}

pub fn common_divisor(mut one: u64, mut other: u64) -> u64 {
    while one != 0 {
        (one, other) = (other % one, one);
    }
    other
}

fn too_great(header: &Header, start: usize, index: u64, stored: u64) -> Finding {
    let at = start as u64 + index * header.width / 8;
    let (smallest, divisor) = (header.smallest(), header.divisor);
    Finding {
        at,
        part: format!("value {index} (from 0)"),
        why: format!("{smallest} + {divisor} times {stored} does not fit in 64 bits"),
    }
}

/// Stored numbers that have a common divisor above 1.
fn multiples(header: &Header, start: usize, common: u64) -> Finding {
    let divisor = header.divisor;
    // At most the greatest value's difference to the smallest, below 2^64.
    let better = divisor * common;
    Finding {
        at: start as u64,
        part: "stored numbers".to_string(),
        why: format!(
            "{common} divides them all, so the writer would give divisor {better} and not {divisor}"
        ),
    }
}

/// The bits after the last value.
pub fn spare_bits(
    header: &Header,
    packing: Packing,
    section: &[u8],
    start: usize,
) -> Option<Finding> {
    let used = (u128::from(header.count) * u128::from(header.width) % 8) as u32;
    let last = *section.last()?;
    let (spare, end) = packing.spare(used);
    (used != 0 && last & spare != 0).then(|| Finding {
        at: (start + section.len() - 1) as u64,
        part: "spare bits after the last value".to_string(),
        why: format!("{last:02X}, and its {} {end} bits must be 0", 8 - used),
    })
}
