//! The divisor, document 02, [2]: its cases, what a greatest common divisor is, and the check beside
//! the plain writer on every section of a few bits.

use super::*;

/// g and w in the column of these values.
fn fields(values: &[i64]) -> (u64, u64) {
    let ids: Vec<u32> = (0..values.len() as u32).collect();
    let mut out = [0; 200];
    let mut of_edition = |edition| {
        let len = write(&ids, values, edition, 9, &mut out).expect("room for a few values");
        open(&out[..len as usize]).expect("a written column opens")
    };
    let [column, packed, runs] = [1, 2, 3].map(&mut of_edition);
    // The same divisor in each edition. Edition 2 has the next width that it knows.
    assert_eq!([packed.divisor, runs.divisor], [column.divisor; 2]);
    assert!(packed.width >= column.width);
    (column.divisor, column.width)
}

#[test]
fn cases_of_the_document() {
    assert_eq!(fields(&[7, 10]), (3, 1));
    assert_eq!(fields(&[i64::MIN, i64::MAX]), (u64::MAX, 1));
    assert_eq!(fields(&[i64::MAX, i64::MIN]), (u64::MAX, 1));
    assert_eq!(fields(&[i64::MIN, 0]), (1 << 63, 1));
    assert_eq!(fields(&[5, 5, 5]), (1, 0));
    assert_eq!(fields(&[]), (1, 0));
    assert_eq!(fields(&[-9, -2, 5]), (7, 2));
}

/// Of all numbers that divide each difference of two values, the greatest.
#[test]
fn the_greatest_that_divides_all_differences() {
    for a in -9_i64..=9 {
        for b in -9..=9 {
            for c in -9..=9 {
                let differences = [a - b, a - c, b - c];
                let divides = |d: &i64| differences.iter().all(|x| x % d == 0);
                let equal = differences == [0; 3];
                let greatest = (1..=18).rfind(divides).filter(|_| !equal);
                assert_eq!(fields(&[a, b, c]).0, greatest.unwrap_or(1) as u64);
            }
        }
    }
}

/// A column with any fields and stored bits, and ids 0, 1, ...
fn column(
    edition: u8,
    [count, width]: [u8; 2],
    smallest: i128,
    divisor: u128,
    section: u8,
) -> Vec<u8> {
    let mut ids = Vec::new();
    if count > 0 {
        ids.extend([0, 0, count - 1, 0]);
        (0..count).for_each(|place| ids.extend([place, 0]));
    }
    ids.extend([0xFF, 0x7F, 0, 0, 0xFF, 0xFF]);
    ids.resize(ids.len() + if count == 0 { 8 } else { 0 }, 0);
    let jumps = u8::from(count == 0);
    let mut out = vec![edition, count, 9, ids.len() as u8, jumps, width];
    let negative = smallest < 0;
    let least = if negative {
        -2 * smallest - 1
    } else {
        2 * smallest
    };
    put_number(&mut out, least as u128);
    put_number(&mut out, divisor);
    out.push(1);
    out.extend(ids);
    out.push(section);
    out
}

/// The values that these bits stand for, if each fits in 64 bits.
fn values(
    edition: u8,
    [count, width]: [u8; 2],
    smallest: i128,
    divisor: u128,
    section: u8,
) -> Option<Vec<i64>> {
    let stored = |i: u8| match edition {
        1 => u32::from(section) << (i * width) >> (8 - width) & ((1 << width) - 1),
        _ => u32::from(section) >> (i * width) & ((1 << width) - 1),
    };
    let value = |i: u8| smallest + divisor as i128 * i128::from(stored(i));
    (0..count).map(|i| i64::try_from(value(i)).ok()).collect()
}

#[test]
fn the_check_takes_what_the_plain_writer_gives() {
    let greatest = i128::from(i64::MAX);
    let mut taken = 0;
    for smallest in [0, -9, 6, greatest - 4, -greatest - 1] {
        for divisor in [1, 2, 3, 7, 1 << 63, u64::MAX.into()] {
            for size in [
                [1, 1],
                [2, 1],
                [2, 2],
                [2, 4],
                [3, 1],
                [3, 2],
                [4, 2],
                [1, 8],
            ] {
                for (edition, section) in (0..=255).flat_map(|byte| [(1, byte), (2, byte)]) {
                    let bytes = column(edition, size, smallest, divisor, section);
                    let values = values(edition, size, smallest, divisor, section);
                    let pairs = values.map(|values| (0..).zip(values).collect());
                    let written = |pairs| plain_column(&pairs, edition.into(), 9);
                    let sound = pairs.is_some_and(|pairs| written(pairs) == bytes);
                    let expected = match sound {
                        true => Ok(u64::from(size[0])),
                        false => Err(Refusal::DAMAGED),
                    };
                    assert_eq!(check(&bytes), expected, "{bytes:02X?}");
                    taken += usize::from(sound);
                }
            }
        }
    }
    assert!(taken > 2000, "{taken}");
}
