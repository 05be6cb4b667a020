//! SHORT and NUMBER: where the header broke. The library tells the byte; its header number is found
//! here by reading those before it.

use super::{Broken, Diagnosis};
use crate::header::{Unreadable, NAMES};
use crate::text::{byte_at, counted};

/// Bytes shown before a place and after it.
const AROUND: usize = 8;

/// SHORT: all bytes of a file, which has so many.
pub fn cut_off(bytes: &[u8], count: usize, unreadable: &Unreadable) -> Diagnosis {
    let (titled, at) = (titled(unreadable), unreadable.at);
    let bytes_there = counted(count as u64, "byte");
    let has = format!("the file has {bytes_there} (0x{count:X}) and ends");
    let mut lines = vec![match count {
        0 => format!("the file is empty: 0 bytes, and {titled}, is missing"),
        _ if count == at => format!("{has} before {titled}"),
        _ => format!("{has} within {titled}, which starts at {}", byte_at(at)),
    }];
    lines.extend((count > 0).then(|| ending(bytes)));
    let advice = "take the file again from where it was written, and compare the lengths by ls -l";
    Diagnosis {
        broken: Some(broken("bytes", count, unreadable)),
        ..Diagnosis::new(lines, advice)
    }
}

/// NUMBER: the first bytes of a file, or all, and the place of the byte that decided it.
pub fn bad_byte(bytes: &[u8], place: usize, unreadable: &Unreadable) -> Diagnosis {
    let (titled, at) = (titled(unreadable), byte_at(unreadable.at));
    let bad = byte_at(place);
    let found = format!("the bad byte is {bad}, counted from 0, in {titled}, which starts at {at}");
    let why = match bytes.get(place).copied().unwrap_or_default() {
        0 => "it is 00 and ends a number of several bytes, which is then not in its shortest form"
            .to_string(),
        byte => format!(
            "it is {byte:02X}, and the tenth byte of a number can only be 01: a number is below 2^64"
        ),
    };
    let after = bytes.len().min(place + AROUND + 1);
    let around = shown(bytes, place.saturating_sub(AROUND), after, Some(place));
    let advice = format!(
        "take the file again, in binary mode, from where it was written; there \
         `od -A d -t x1 -j {place} -N 1 FILE` shows what byte {place} must be"
    );
    Diagnosis {
        broken: Some(broken("place", place, unreadable)),
        ..Diagnosis::new(vec![found, why, around], advice)
    }
}

fn broken(key: &'static str, number: usize, unreadable: &Unreadable) -> Broken {
    Broken {
        key,
        number: number as u64,
        name: NAMES[unreadable.index],
    }
}

/// A header number's name, and which it is.
fn titled(unreadable: &Unreadable) -> String {
    let (name, which) = (NAMES[unreadable.index], unreadable.index + 1);
    format!("{name}, header number {which} of {}", NAMES.len())
}

/// The last bytes of a file.
fn ending(bytes: &[u8]) -> String {
    let from = bytes.len().saturating_sub(2 * AROUND);
    shown(bytes, from, bytes.len(), None) + " and no more"
}

/// The bytes from one place up to another, and the marked one in brackets.
fn shown(bytes: &[u8], from: usize, to: usize, marked: Option<usize>) -> String {
    let part = bytes.get(from..to).unwrap_or_default();
    let digits: Vec<String> = (from..)
        .zip(part)
        .map(|(place, byte)| match marked == Some(place) {
            true => format!("[{byte:02X}]"),
            false => format!("{byte:02X}"),
        })
        .collect();
    let last = to.saturating_sub(1);
    format!(
        "bytes {from} to {last} (0x{from:X} to 0x{last:X}): {}",
        digits.join(" ")
    )
}

#[cfg(test)]
mod tests {
    use signalfern::Refusal;

    use crate::header::Header;

    /// The byte that the library tells belongs to the header number that is named here.
    #[test]
    fn bytes_and_their_numbers() {
        let mut random = 5_u64;
        let (mut short, mut bad) = (0, 0);
        for _ in 0..20_000 {
            let mut bytes = vec![1];
            while random >> 60 != 0 && bytes.len() < 60 {
                random = random.wrapping_mul(6364136223846793005).wrapping_add(1);
                bytes.push([0, 1, 2, 0x80, 0x80, 0x81, 0xFF, 0xFF][(random >> 40) as usize % 8]);
            }
            random = random.wrapping_mul(6364136223846793005).wrapping_add(1);
            let read = Header::parse(&bytes);
            let place = match (signalfern::check(&bytes), &read) {
                (Err(Refusal::Short { bytes: count }), Err(_)) => {
                    short += 1;
                    count
                }
                (Err(Refusal::Number { place }), Err(_)) => {
                    bad += 1;
                    place
                }
                (_, read) => {
                    assert!(read.is_ok(), "{bytes:02X?}");
                    continue;
                }
            };
            let at = read.unwrap_err().at;
            assert!(
                (at..at + 10).contains(&place),
                "{bytes:02X?}: {place}, {at}"
            );
        }
        assert!(short > 1000 && bad > 1000, "{short} {bad}");
    }
}
