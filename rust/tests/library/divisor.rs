//! The divisor of document 02, [2]: columns worked out by hand, what the divisor of a written column
//! is, and which stored numbers are those of a column.

use crate::common::damage::Tally;
use crate::common::parts::{self, Parts};
use crate::common::{bytes, few_ids, same, values_of_width, Random, PACKED, POWERS, SCALED};
use signalfern::{Edition, Refusal};
use signalfern_reference::Answer;

/// No id; ids 0 and 1; ids 0, 1 and 2: block number, count less one, places, end block, jump entries.
const NONE: &str = "FF 7F 00 00 FF FF 00 00 00 00 00 00 00 00";
const TWO: &str = "00 00 01 00 00 00 01 00 FF 7F 00 00 FF FF";
const THREE: &str = "00 00 02 00 00 00 01 00 02 00 FF 7F 00 00 FF FF";

/// Values, the header of their column at rank power 9, its id section and its value section.
type Line = (&'static [i64], &'static str, &'static str, &'static str);

/// After w stand the smallest value (2v, or -2v-1 below 0), g and V.
const BY_HAND: [Line; 10] = [
    // Stored 0 and 1: 01 and six spare bits. 7 is 0E.
    (&[7, 10], "01 02 09 0E 00 01 0E 03 01", TWO, "40"),
    (&[10, 7], "01 02 09 0E 00 01 0E 03 01", TWO, "80"),
    // -2^63 is the header number 2^64 - 1; so is their difference.
    (
        &[i64::MIN, i64::MAX],
        "01 02 09 0E 00 01 FF FF FF FF FF FF FF FF FF 01 FF FF FF FF FF FF FF FF FF 01 01",
        TWO,
        "40",
    ),
    (
        &[i64::MAX, i64::MIN],
        "01 02 09 0E 00 01 FF FF FF FF FF FF FF FF FF 01 FF FF FF FF FF FF FF FF FF 01 01",
        TWO,
        "80",
    ),
    // 2^63 is bit 63 alone, which the tenth byte holds.
    (
        &[i64::MIN, 0],
        "01 02 09 0E 00 01 FF FF FF FF FF FF FF FF FF 01 80 80 80 80 80 80 80 80 80 01 01",
        TWO,
        "40",
    ),
    // 2^64 - 1 is odd, and only powers of two divide 2^63: g 1, w 64 (40 hex).
    (
        &[i64::MIN, i64::MAX, 0],
        "01 03 09 10 00 40 FF FF FF FF FF FF FF FF FF 01 01 18",
        THREE,
        "00 00 00 00 00 00 00 00 FF FF FF FF FF FF FF FF 80 00 00 00 00 00 00 00",
    ),
    (&[5, 5, 5], "01 03 09 10 00 00 0A 01 00", THREE, ""),
    (&[], "01 00 09 0E 01 00 00 01 00", NONE, ""),
    // Stored 0, 1, 2: 00 01 10 and two spare bits. -9 is 17, 11 hex.
    (&[-9, -2, 5], "01 03 09 10 00 02 11 07 01", THREE, "18"),
    // The first value is the greatest: stored 2, 0, 1.
    (&[5, -9, -2], "01 03 09 10 00 02 11 07 01", THREE, "84"),
];

#[test]
fn columns_by_hand() {
    for (values, header, ids, stored) in BY_HAND {
        let column = bytes(&[header, ids, stored].join(" "));
        let listed: Vec<u32> = (0..values.len() as u32).collect();
        assert_eq!(
            same::write_exactly(&listed, values, Edition::Plain, 9),
            column
        );
        let pairs = same::read(&column, listed.len(), listed.len());
        assert_eq!(pairs, Ok((listed.clone(), values.to_vec())));
        Tally::default().try_all(&column, &listed);
        for (id, &value) in listed.iter().zip(values) {
            let answer = same::look_up(&column, *id);
            assert!(matches!(answer, Ok(Answer::Found { value: v, .. }) if v == value));
        }
    }
}

fn common_divisor(numbers: &[u64]) -> u64 {
    numbers.iter().fold(0, |mut a, &b| {
        let mut b = b;
        while b != 0 {
            (a, b) = (b, a % b);
        }
        a
    })
}

/// Where not all values are equal, g divides each difference, nothing greater does, and the stored
/// numbers are the differences to the smallest value over g.
#[test]
fn what_the_divisor_is() {
    let mut random = Random::new(50);
    let mut above_one = 0;
    for round in 0..3000 {
        let ids = few_ids(&mut random, 12);
        let width = random.below(65) as u32;
        let values = values_of_width(&mut random, ids.len(), width);
        let (edition, power) = (SCALED[round / 10 % 3], POWERS[round % 10]);
        let parts = Parts::of(&same::write_exactly(&ids, &values, edition, power));
        let exact: Vec<i128> = values.iter().map(|&value| value.into()).collect();
        let smallest = exact.iter().copied().min().unwrap_or(0);
        let over: Vec<u64> = exact.iter().map(|v| (v - smallest) as u64).collect();
        let (g, stored) = (parts.numbers[parts::STEP], parts.stored());
        assert!(stored
            .iter()
            .zip(&over)
            .all(|(s, o)| o % g == 0 && *s == o / g));
        // Two differences to the smallest value differ as the two values do.
        let greatest = common_divisor(&over);
        assert_eq!(g, greatest.max(1), "{values:?}");
        above_one += usize::from(g > 1);
    }
    assert!(above_one > 1000, "{above_one}");
}

/// A column of that many ids in which the values may be put by their numbers.
fn blank(count: usize, edition: Edition) -> Parts {
    let ids: Vec<u32> = (0..count as u32).map(|i| 3 * i).collect();
    Parts::of(&signalfern::write_to_vec(&ids, &vec![0; count], edition, 9).unwrap())
}

/// Numbers of that width, or a smaller one, with 0 and 1 among them.
fn without_common_divisor(random: &mut Random, width: u32) -> Vec<u64> {
    let mut stored: Vec<u64> = (0..3 + random.below(9))
        .map(|_| random.next() >> (64 - width))
        .collect();
    stored[random.below(2)] = 0;
    stored[2] = 1;
    stored
}

/// The stored numbers decide, whatever smallest value and divisor they go with, as long as each value
/// fits: 0 is among them, and no number above 1 divides them all.
#[test]
fn stored_numbers_of_a_column() {
    let mut random = Random::new(51);
    let mut tally = Tally::default();
    for _ in 0..4000 {
        let width = 1 + random.below(62) as u32;
        let stored = without_common_divisor(&mut random, width);
        let mut column = blank(stored.len(), random.pick(&PACKED));
        let any = random.next();
        let step = random.pick(&[1, 1, 2, 3, 10, 1 << 20, any >> 40 | 1]);
        let smallest = random.pick(&[0, -1, 7, i64::MIN, i64::MAX - 100, any as i64]);
        column.numbers[parts::STEP] = step;
        column.numbers[parts::LEAST] = (smallest << 1 ^ smallest >> 63) as u64;
        column.store(&stored);
        let most = *stored.iter().max().unwrap();
        let greatest = i128::from(smallest) + i128::from(step) * i128::from(most);
        let expected = match i64::try_from(greatest) {
            Ok(_) => Ok(stored.len() as u64),
            Err(_) => Err(Refusal::Damaged),
        };
        assert_eq!(same::check(&column.bytes()), expected, "{column:?}");
        tally.try_all(&column.bytes(), &[0, 3, 6]);
        for factor in [2, 3, 7, 60, 1 << 31] {
            let multiples: Option<Vec<u64>> =
                stored.iter().map(|s| s.checked_mul(factor)).collect();
            if let Some(multiples) = multiples {
                column.store(&multiples);
                assert_eq!(same::check(&column.bytes()), Err(Refusal::Damaged));
                tally.try_all(&column.bytes(), &[0, 3, 6]);
            }
        }
        column.store(&stored.iter().map(|s| s + 1).collect::<Vec<u64>>());
        assert_eq!(same::check(&column.bytes()), Err(Refusal::Damaged));
        tally.try_all(&column.bytes(), &[0, 3, 6]);
    }
    tally.has(&[0, 12, 13, 15]);
    assert!(tally.0[0] > 4000, "{:?}", tally.0);
}

/// The same values by another divisor or another smallest value: a list has one column.
#[test]
fn the_same_values_otherwise() {
    for edition in PACKED {
        stored_otherwise(edition);
    }
}

fn stored_otherwise(edition: Edition) {
    let ids = [2, 5, 9, 11];
    let values = [-100, 140, 20, 80];
    // Differences 240, 120, 180: g 60, stored 0, 4, 2, 3.
    let column = same::write_exactly(&ids, &values, edition, 9);
    let sound = Parts::of(&column);
    assert_eq!(sound.numbers[parts::STEP], 60);
    assert_eq!(sound.stored(), [0, 4, 2, 3]);
    let holds = |parts: &Parts| {
        let bytes = parts.bytes();
        for (&id, &value) in ids.iter().zip(&values) {
            let answer = same::look_up(&bytes, id);
            assert!(matches!(answer, Ok(Answer::Found { value: v, .. }) if v == value));
        }
        same::check(&bytes)
    };
    assert_eq!(holds(&sound), Ok(4));
    for factor in [2, 3, 4, 5, 6, 10, 12, 15, 20, 30, 60] {
        let mut other = sound.clone();
        other.numbers[parts::STEP] = 60 / factor;
        other.store(&[0, 4 * factor, 2 * factor, 3 * factor]);
        assert_eq!(holds(&other), Err(Refusal::Damaged), "{factor}");
    }
    for below in [1, 2, 4] {
        let mut other = sound.clone();
        // -100 - 60 below is the header number 199 + 120 below.
        other.numbers[parts::LEAST] = 199 + 120 * below;
        other.store(&[below, 4 + below, 2 + below, 3 + below]);
        assert_eq!(holds(&other), Err(Refusal::Damaged), "{below}");
    }
}
