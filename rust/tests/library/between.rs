//! The first value in a range (document 02, [11]): on columns beside a plain scan of the list, on other bytes
//! by what the directory says, and what is refused in which order.

use crate::common::parts::{self, Parts};
use crate::common::runs::{self, number, ordinals, scanned, some_values, with, Number, RUN};
use crate::common::{same, Random, PACKED, THREE_PAIRS};
use signalfern::{Column, Edition, Header, Refusal};

/// Ranges around values of the list, and the widest and the narrowest.
fn ranges(random: &mut Random, values: &[i64]) -> Vec<(i64, i64)> {
    let mut ranges = vec![
        (i64::MIN, i64::MAX),
        (i64::MIN, i64::MIN),
        (i64::MAX, i64::MAX),
    ];
    ranges.extend([(0, 0), (1, 0), (i64::MAX, i64::MIN)]);
    for _ in 0..20.min(values.len()) {
        let value = random.pick(values);
        let by = (random.next() >> random.below(64)) as i64 & i64::MAX;
        ranges.extend([
            (value, value),
            (value.saturating_add(1), value.saturating_add(by)),
            (value.saturating_sub(by), value.saturating_sub(1)),
            (value.saturating_sub(by), value),
            (i64::MIN, value.saturating_sub(1)),
            (value.saturating_add(1), i64::MAX),
        ]);
    }
    ranges
}

#[test]
fn as_a_plain_scan_has_it() {
    let mut random = Random::new(95);
    let mut told = [0; 2];
    for count in [0, 1, 2, 3, 16_383, 16_384, 16_385, 32_768, 32_769, 40_000] {
        for _ in 0..3 {
            let values = some_values(&mut random, count);
            let column = runs::column(&values);
            for (low, high) in ranges(&mut random, &values) {
                let found = same::first_between(&column, low, high);
                assert_eq!(found, Ok(scanned(&values, low, high)), "{low} to {high}");
                told[usize::from(found.unwrap().is_some())] += 1;
            }
        }
    }
    assert!(told[0] > 300 && told[1] > 300, "{told:?}");
}

/// From each answer on, up to none: all ordinals of the list with such a value, and from any ordinal the first of them.
#[test]
fn from_an_ordinal_on() {
    let mut random = Random::new(96);
    let mut told = [0; 2];
    for count in [0, 1, 3, 16_384, 16_385, 40_000] {
        let values = some_values(&mut random, count);
        let column = runs::column(&values);
        let header = Column::open(&column).unwrap().header();
        for (low, high) in ranges(&mut random, &values) {
            let within = |&ordinal: &u64| (low..=high).contains(&values[ordinal as usize]);
            let listed: Vec<u64> = (0..count as u64).filter(within).collect();
            let borders = ordinals(count).into_iter().map(|it| it as u64);
            let past = [count as u64, count as u64 + 1, u64::MAX];
            for from in borders.chain(past) {
                let first = listed.get(listed.partition_point(|&it| it < from)).copied();
                let found = same::first_between_from(&column, from, low, high);
                assert_eq!(found, Ok(first), "from {from}: {low} to {high}");
                let opened = same::first_between_from_in(header, &column, from, (low, high));
                assert_eq!(opened, found);
                told[usize::from(first.is_some())] += 1;
            }
            // All of them, where they are not too many.
            if listed.len() > 500 {
                continue;
            }
            let opened = Column::open(&column).unwrap();
            let (mut all, mut from) = (Vec::new(), 0);
            while let Some(ordinal) = opened.first_between_from(from, low, high).unwrap() {
                all.push(ordinal);
                from = ordinal + 1;
            }
            assert_eq!(all, listed, "{low} to {high}");
        }
    }
    assert!(told.iter().all(|&count| count > 300), "{told:?}");
}

/// What lies before the ordinal is not asked: neither a value, nor what the directory says of a run before it.
#[test]
fn from_an_ordinal_on_by_other_directories() {
    let sound = three_runs();
    let ask = |parts: &Parts, from: usize, low, high| {
        same::first_between_from(&parts.bytes(), from as u64, low, high)
    };
    let run = RUN as u64;
    assert_eq!(ask(&sound, 5, 5, 5), Ok(Some(5)));
    assert_eq!(ask(&sound, RUN, 5, 5), Ok(Some(run + 5)));
    assert_eq!(ask(&sound, RUN + 6, 5, 5), Ok(Some(run + 105)));
    assert_eq!(ask(&sound, RUN + 6, 1000, 1000), Ok(Some(2 * run)));
    assert_eq!(ask(&sound, 2 * RUN + 9, 0, 2000), Ok(Some(2 * run + 9)));
    assert_eq!(ask(&sound, 2 * RUN + 10, 0, 2000), Ok(None));
    // A width of 65: refused where a value of the run is met, from its last one on too.
    let broken = with(&sound, 1, Number::Width, 65);
    for from in [0, RUN - 1, RUN, 2 * RUN - 1] {
        assert_eq!(ask(&broken, from, 6, 2000), Err(Refusal::Broken));
        assert_eq!(ask(&broken, from, 100, 2000), Ok(Some(2 * run)));
    }
    assert_eq!(ask(&broken, RUN - 1, 5, 5), Ok(Some(run - 1)));
    assert_eq!(ask(&broken, 2 * RUN, 6, 2000), Ok(Some(2 * run)));
    // One byte on: the last two of ten numbers of four bits reach past the section.
    let start = number(&sound, 2, Number::Start);
    let last = with(&sound, 2, Number::Start, start + 1);
    assert_eq!(ask(&last, 2 * RUN + 7, 0, 2000), Ok(Some(2 * run + 7)));
    assert_eq!(ask(&last, 2 * RUN + 8, 0, 2000), Err(Refusal::Broken));
    assert_eq!(ask(&last, 2 * RUN + 10, 0, 2000), Ok(None));
    // a > b and an ordinal of n or more before it.
    assert_eq!(ask(&last, 2 * RUN + 8, 2000, 0), Ok(None));
}

/// The values at the borders of runs, and all from them on: small ones in steps of 8, and widths of 0 and 64 side by
/// side, either way round.
#[test]
fn values_at_the_borders_of_runs() {
    let mut random = Random::new(98);
    let mut wide: Vec<i64> = (0..RUN).map(|_| random.next() as i64).collect();
    wide[..2].copy_from_slice(&[i64::MIN, i64::MAX]);
    let mut steps = |low: i64, most| {
        (0..RUN)
            .map(|_| low + 8 * random.below(most) as i64)
            .collect()
    };
    let small: [Vec<i64>; 3] = [steps(-40, 16), steps(8_000_000_000, 4), steps(-16, 1024)];
    let equal = vec![7; RUN];
    for three in [
        small.concat(),
        [&equal[..], &wide, &equal].concat(),
        [&wide[..], &equal, &wide].concat(),
    ] {
        for count in [0, 1, 16_383, 16_384, 16_385, 40_000] {
            let values = &three[..count];
            let column = runs::column(values);
            assert_eq!(same::check(&column), Ok(count as u64));
            for ordinal in ordinals(count) {
                let value = values[ordinal];
                assert_eq!(runs::value(&column, ordinal), Ok(value));
                for high in [value, i64::MAX] {
                    let found = same::first_between(&column, value, high);
                    assert_eq!(found, Ok(scanned(values, value, high)), "{value} to {high}");
                }
            }
        }
    }
}

/// Runs of a few values each time, in every order: the first run that holds one answers.
#[test]
fn the_first_run_that_holds_one() {
    let blocks = [[5, 5], [-3, 9], [100, 200], [i64::MIN, i64::MAX]];
    for order in 0..256_usize {
        let chosen = [order % 4, order / 4 % 4, order / 16 % 4, order / 64];
        let mut values = Vec::new();
        for (run, block) in chosen.into_iter().enumerate() {
            let len = if run == 3 { 10 } else { RUN };
            values.extend(blocks[block].iter().cycle().take(len));
        }
        let column = runs::column(&values);
        let column = Column::open(&column).unwrap();
        for (low, high) in [
            (5, 5),
            (6, 9),
            (-3, -3),
            (10, 99),
            (150, 200),
            (201, i64::MAX),
        ] {
            let found = column.first_between(low, high);
            assert_eq!(found, Ok(scanned(&values, low, high)), "{chosen:?}");
        }
    }
}

/// 16384 times 5, then 0 to 99 over and over, then 1000 to 1009.
fn three_runs() -> Parts {
    let mut values = vec![5; RUN];
    values.extend((0..RUN as i64).map(|i| i % 100));
    values.extend(1000..1010);
    Parts::of(&runs::column(&values))
}

/// The directory decides whether a run is read: one that says wrong hides an answer, or shows none.
#[test]
fn a_directory_that_says_wrong() {
    let sound = three_runs();
    let ask = |parts: &Parts, low, high| same::first_between(&parts.bytes(), low, high);
    let (first, second) = (RUN as u64, 2 * RUN as u64);
    assert_eq!(ask(&sound, 99, 99), Ok(Some(first + 99)));
    // The greatest, one below: 99 is not looked for there; one above: nothing is found there either.
    assert_eq!(
        ask(&with(&sound, 1, Number::Greatest, 98), 99, 99),
        Ok(None)
    );
    assert_eq!(
        ask(&with(&sound, 1, Number::Greatest, 98), 98, 99),
        Ok(Some(first + 98))
    );
    assert_eq!(
        ask(&with(&sound, 1, Number::Greatest, 100), 100, 999),
        Ok(None)
    );
    // The smallest is both: what skips, and what values are counted from.
    assert_eq!(ask(&with(&sound, 1, Number::Smallest, 1), 0, 0), Ok(None));
    assert_eq!(
        ask(&with(&sound, 1, Number::Smallest, 1), 1, 1),
        Ok(Some(first))
    );
    assert_eq!(
        ask(&with(&sound, 1, Number::Smallest, u64::MAX), -1, -1),
        Ok(Some(first))
    );
    assert_eq!(
        ask(&with(&sound, 2, Number::Smallest, 999), 1008, 1009),
        Ok(Some(second + 9))
    );
    // A run that says that its smallest is above its greatest is read if neither skips it.
    let turned = with(
        &with(&sound, 0, Number::Smallest, 7),
        0,
        Number::Greatest,
        6,
    );
    assert_eq!(ask(&turned, 6, 7), Ok(Some(0)));
    assert_eq!(ask(&turned, 7, 7), Ok(Some(first + 7)));
    assert_eq!(same::check(&turned.bytes()), Err(Refusal::Damaged));
}

/// A start one off, one past the section and a width of 65: BROKEN where such a value is met, and not in a
/// run that is skipped, nor after the answer.
#[test]
fn broken_runs() {
    let sound = three_runs();
    let packed = sound.values.len() as u64 - 75;
    let broken = Err(Refusal::Broken);
    for damaged in [
        with(&sound, 1, Number::Width, 65),
        with(&sound, 1, Number::Width, 255),
        with(&sound, 1, Number::Start, packed),
        with(&sound, 1, Number::Start, u64::MAX),
    ] {
        let bytes = damaged.bytes();
        let ask = |low, high| same::first_between(&bytes, low, high);
        // Run 0 has the answer; run 1 is met; run 1 is skipped.
        assert_eq!(ask(5, 5), Ok(Some(0)));
        assert_eq!(ask(0, 0), broken);
        assert_eq!(ask(6, 2000), broken);
        assert_eq!(ask(100, 2000), Ok(Some(2 * RUN as u64)));
        assert_eq!(ask(i64::MIN, -1), Ok(None));
        // a > b before it.
        assert_eq!(ask(99, 0), Ok(None));
        assert_eq!(same::check(&bytes), Err(Refusal::Damaged));
    }
    // One byte on: values that are found before the one that reaches past the section.
    let last = with(
        &sound,
        2,
        Number::Start,
        number(&sound, 2, Number::Start) + 1,
    );
    let ask = |low, high| same::first_between(&last.bytes(), low, high);
    // Ten numbers of four bits, 01 23 45 67 89: from 23 on there are eight.
    assert_eq!(ask(1002, 1003), Ok(Some(2 * RUN as u64)));
    assert_eq!(ask(1009, 1009), Ok(Some(2 * RUN as u64 + 7)));
    assert_eq!(ask(1001, 1001), broken);
    assert_eq!(ask(1000, 1000), broken);
    // One byte back: the last byte of run 1 and the whole run, but for 9.
    let back = with(
        &sound,
        2,
        Number::Start,
        number(&sound, 2, Number::Start) - 1,
    );
    assert_eq!(same::first_between(&back.bytes(), 1009, 1009), Ok(None));
    // A run without bits may start anywhere.
    let far = with(&sound, 0, Number::Start, u64::MAX);
    assert_eq!(same::first_between(&far.bytes(), 5, 5), Ok(Some(0)));
    // A value that does not fit.
    let great = with(&sound, 1, Number::Smallest, i64::MAX as u64 - 98);
    let great = with(&great, 1, Number::Greatest, i64::MAX as u64);
    let ask = |low, high| same::first_between(&great.bytes(), low, high);
    assert_eq!(ask(i64::MAX, i64::MAX), Ok(Some(RUN as u64 + 98)));
    assert_eq!(ask(3000, i64::MAX - 99), Ok(None));
    assert_eq!(ask(3000, i64::MAX - 98), Ok(Some(RUN as u64)));
}

#[test]
fn what_is_refused_in_which_order() {
    let column = same::write_exactly(&[0, 2, 7], &[150, 140, 135], Edition::Runs, 9);
    let sound = Parts::of(&column);
    let any = [(0, 999), (999, 0)];
    let refused = |bytes: &[u8], refusal: Refusal| {
        for (low, high) in any {
            assert_eq!(
                same::first_between(bytes, low, high),
                Err(refusal),
                "{bytes:02X?}"
            );
            let far = same::first_between_from(bytes, u64::MAX, low, high);
            assert_eq!(far, Err(refusal), "{bytes:02X?}");
        }
    };
    for len in 0..9 {
        refused(&column[..len], Refusal::Short { bytes: len });
    }
    for len in 9..column.len() {
        refused(&column[..len], Refusal::Length);
    }
    // Another edition as soon as the first number is read, whatever follows it: nothing, a bad number, a
    // broken rule, another length.
    refused(&[1], Refusal::Edition);
    refused(&[0x80], Refusal::Short { bytes: 1 });
    refused(&[0x83, 0x00], Refusal::Number { place: 1 });
    for first in [0, 1, 2, 4, 0x7F] {
        refused(&[first, 0x80, 0x00], Refusal::Edition);
        refused(&[&[first], &column[1..40]].concat(), Refusal::Edition);
    }
    refused(&[3, 0x80, 0x00], Refusal::Number { place: 2 });
    refused(&THREE_PAIRS, Refusal::Edition);
    for edition in PACKED {
        let other = same::write_exactly(&[], &[], edition, 9);
        refused(&other, Refusal::Edition);
    }
    // A broken rule before the length.
    let mut rule = sound.clone();
    rule.numbers[parts::POWER] = 6;
    refused(&rule.bytes()[..20], Refusal::Header);
    // From an opened column, or any numbers: the edition first, then the rules, then the length.
    let opened = Column::open(&column).unwrap().header();
    let from = |header: Header, bytes: &[u8]| same::first_between_in(header, bytes, 130, 145);
    assert_eq!(from(opened, &column), Ok(Some(1)));
    assert_eq!(from(opened, &column[1..]), Err(Refusal::Length));
    let mut other = opened;
    other.power = 6;
    assert_eq!(from(other, &column[1..]), Err(Refusal::Header));
    for edition in [0, 1, 2, 4, 5, u64::MAX] {
        other.edition = edition;
        assert_eq!(from(other, &column[1..]), Err(Refusal::Edition));
    }
    assert_eq!(from(Header::default(), &[]), Err(Refusal::Edition));
    let mut wide = opened;
    wide.width = 2;
    assert_eq!(from(wide, &column), Err(Refusal::Header));
    let mut least = opened;
    least.smallest = -1;
    assert_eq!(from(least, &column), Err(Refusal::Header));
}
