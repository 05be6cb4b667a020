//! Edition 3 (document 02, [11]): directories with one number changed, starts past the section, widths above 64,
//! headers that break a rule, and any changes. Every call beside the reference.

use crate::common::damage::{refused_everywhere, Tally};
use crate::common::parts::{self, Parts};
use crate::common::runs::{
    self, number, ordinals, side_by_side, some_values, value, with, Number, ENTRY, RUN,
};
use crate::common::{layers, same, Random};
use signalfern::Refusal;

/// A directory with one number off by one: no column. What its look-ups say, the steps fix.
#[test]
fn directories_off_by_one() {
    let values = side_by_side();
    let sound = Parts::of(&runs::column(&values));
    for run in 0..3 {
        for field in Number::EACH {
            let own = number(&sound, run, field);
            for other in [own.wrapping_add(1), own.wrapping_sub(1)] {
                let bytes = with(&sound, run, field, other).bytes();
                assert_eq!(
                    same::check(&bytes),
                    Err(Refusal::Damaged),
                    "{run} {field:?}"
                );
                let asked: Vec<u32> = [RUN * run, RUN * run + 1].map(|o| 2 * o as u32).into();
                Tally::default().try_all(&bytes, &asked);
                // The other runs are as they were.
                for ordinal in ordinals(values.len())
                    .into_iter()
                    .filter(|o| o / RUN != run)
                {
                    assert_eq!(value(&bytes, ordinal), Ok(values[ordinal]));
                }
            }
        }
    }
    let told = |run, field, other| {
        let bytes = with(&sound, run, field, other).bytes();
        [0, 1, 2].map(|k| value(&bytes, RUN * run + k))
    };
    let broken = Err(Refusal::Broken);
    // Step 7 takes the run's smallest; 2^64 - 1 more than that does not fit then.
    assert_eq!(told(0, Number::Smallest, 8), [Ok(8); 3]);
    let least = i64::MIN as u64;
    assert_eq!(
        told(1, Number::Smallest, least + 1),
        [Ok(i64::MIN + 1), Ok(1), broken]
    );
    assert_eq!(told(2, Number::Smallest, u64::MAX), [Ok(-1), Ok(0), Ok(1)]);
    // The greatest is in no step.
    assert_eq!(told(2, Number::Greatest, 0), [Ok(0), Ok(1), Ok(2)]);
    // Without a width the start does not matter, and with one it is counted after the directory.
    assert_eq!(told(0, Number::Start, 1), [Ok(7); 3]);
    // Seven times 00 and then 80, from the second byte on.
    assert_eq!(told(1, Number::Start, 1)[0], Ok(i64::MIN + 0x80));
    assert_eq!(told(1, Number::Start, u64::MAX), [broken; 3]);
    // 1B 1B .. is 00 01 10 11: with one bit 0, 0, 0; with three 000, 110, 110.
    assert_eq!(told(2, Number::Width, 1), [Ok(0); 3]);
    assert_eq!(told(2, Number::Width, 3), [Ok(0), Ok(6), Ok(6)]);
    // One bit where there was none: the run's first byte is the next run's, 00.
    assert_eq!(told(0, Number::Width, 1), [Ok(7); 3]);
    assert_eq!(told(1, Number::Width, 65), [broken; 3]);
}

/// Starts at the end of the section and past it.
#[test]
fn starts_past_the_section() {
    let values = side_by_side();
    let sound = Parts::of(&runs::column(&values));
    let packed = sound.values.len() as u64 - 75;
    for start in [
        packed,
        packed + 1,
        packed + 75,
        1 << 61,
        1 << 63,
        u64::MAX - 7,
        u64::MAX,
    ] {
        for (run, told) in [
            (0, Ok(7)),
            (1, Err(Refusal::Broken)),
            (2, Err(Refusal::Broken)),
        ] {
            let bytes = with(&sound, run, Number::Start, start).bytes();
            assert_eq!(same::check(&bytes), Err(Refusal::Damaged));
            assert_eq!(value(&bytes, RUN * run), told, "{run} {start}");
            Tally::default().try_all(&bytes, &[0, 2 * RUN as u32, 4 * RUN as u32]);
        }
    }
    // The last byte of the section has the numbers 0 to 3: one more byte on it would be past the end.
    let bytes = with(&sound, 2, Number::Start, packed - 1).bytes();
    let told = [0, 3, 4].map(|k| value(&bytes, 2 * RUN + k));
    assert_eq!(told, [Ok(0), Ok(3), Err(Refusal::Broken)]);
    // Nine bytes before the end, two numbers of 64 bits do not fit.
    let bytes = with(&sound, 1, Number::Start, packed - 9).bytes();
    assert!(value(&bytes, RUN).is_ok());
    assert_eq!(value(&bytes, RUN + 1), Err(Refusal::Broken));
}

#[test]
fn widths_above_64() {
    let sound = Parts::of(&runs::column(&side_by_side()));
    for width in [64, 65, 66, 127, 128, 255] {
        for run in 0..3 {
            let bytes = with(&sound, run, Number::Width, width).bytes();
            let own = number(&sound, run, Number::Width) == width;
            let refused = if own {
                Ok(40_000)
            } else {
                Err(Refusal::Damaged)
            };
            assert_eq!(same::check(&bytes), refused);
            let told = value(&bytes, RUN * run);
            assert_eq!(told == Err(Refusal::Broken), width > 64, "{run} {width}");
            Tally::default().try_all(&bytes, &[0, 2 * RUN as u32, 4 * RUN as u32]);
        }
    }
}

/// The header's smallest value and w are 0, and V has room for the directory.
#[test]
fn headers_that_break_a_rule() {
    for count in [1_usize, 16_384, 16_385, 40_000] {
        let values: Vec<i64> = (0..count as i64).map(|i| i % 3).collect();
        let sound = Parts::of(&runs::column(&values));
        for (field, other) in [
            (parts::WIDTH, 1),
            (parts::WIDTH, 64),
            (parts::WIDTH, u64::MAX),
            (parts::LEAST, 1),
            (parts::LEAST, u64::MAX),
            (parts::STEP, 0),
        ] {
            let mut changed = sound.clone();
            changed.numbers[field] = other;
            refused_everywhere(&changed.bytes(), Refusal::Header);
        }
        let directory = ENTRY * count.div_ceil(RUN);
        for len in [0, 1, directory - 1, directory, directory + 1] {
            let mut cut = sound.clone();
            cut.values.truncate(len);
            let bytes = cut.bytes_with_lengths();
            if len < directory {
                refused_everywhere(&bytes, Refusal::Header);
            } else if count > 1 {
                // The directory is there, and its runs are not.
                let last = value(&bytes, count.min(RUN) - 1);
                assert_eq!(last, Err(Refusal::Broken));
                assert_eq!(same::check(&bytes), Err(Refusal::Damaged));
            }
            Tally::default().try_all(&bytes, &[0, 2]);
        }
        let mut longer = sound.clone();
        longer.values.push(0);
        refused_everywhere(&longer.bytes(), Refusal::Length);
        assert_eq!(
            same::check(&longer.bytes_with_lengths()),
            Err(Refusal::Damaged)
        );
    }
    // Without pairs there is no directory, g is 1, and nothing follows.
    let empty = Parts::of(&runs::column(&[]));
    assert_eq!((empty.values.len(), empty.numbers[parts::STEP]), (0, 1));
    for (values, divisor) in [(vec![0; 25], 1), (vec![0], 1), (vec![], 2)] {
        let mut other = empty.clone();
        (other.values, other.numbers[parts::STEP]) = (values, divisor);
        assert_eq!(
            same::check(&other.bytes_with_lengths()),
            Err(Refusal::Damaged)
        );
        Tally::default().try_all(&other.bytes_with_lengths(), &[0]);
    }
}

/// Changed bytes in the directory, in the runs and in the header, of columns with one to three runs: every
/// call.
#[test]
fn changed_columns() {
    let mut random = Random::new(91);
    let mut tally = Tally::default();
    for round in 0..60 {
        let count = random.pick(&[1, 5, 16_383, 16_384, 16_385, 40_000]);
        let sound = Parts::of(&runs::column(&some_values(&mut random, count)));
        let asked: Vec<u32> = ordinals(count).iter().map(|&o| 2 * o as u32).collect();
        for _ in 0..12 {
            let mut changed = sound.clone();
            for _ in 0..1 + random.below(2) {
                let run = random.below(count.div_ceil(RUN));
                let field = random.pick(&Number::EACH);
                let own = number(&changed, run, field);
                let any = random.next() >> random.below(64);
                let others = [own ^ 1, own.wrapping_add(8), own ^ 1 << 63, 0, any];
                changed = match random.below(4) {
                    0 => {
                        let at = random.below(changed.values.len());
                        changed.values[at] ^= 1 << random.below(8);
                        changed
                    }
                    1 if round % 2 == 0 => {
                        changed.numbers[parts::STEP] = random.pick(&[0, 1, 2, 3, u64::MAX, any]);
                        changed
                    }
                    _ => with(&changed, run, field, random.pick(&others)),
                };
            }
            let bytes = changed.bytes();
            tally.try_all(&bytes, &asked);
            let over = sound.bytes();
            for &id in asked.iter().rev().take(4) {
                tally.count(same::next(&bytes, id.max(7)).err());
                for (machine, correction) in [(&bytes, &over), (&over, &bytes), (&bytes, &bytes)] {
                    let look = layers::look_up(machine, correction, id);
                    tally.count(look.err().map(|(_, refusal)| refusal));
                }
            }
        }
    }
    tally.has(&[0, 10, 13, 15]);
}
