//! Edition 3, value blocks with a summary (document 02, [11]): columns of each count at the borders of runs, by
//! every call beside the reference. Directories and headers that say wrong: `runs_damage`; the question:
//! `between`.

use crate::common::damage::Tally;
use crate::common::parts::{self, Parts};
use crate::common::runs::{
    self, number, ordinals, side_by_side, some_values, value, Number, ENTRY, RUN,
};
use crate::common::{layers, same, Random};
use signalfern::{Checked, Column, Edition, Refusal};
use signalfern_reference::Answer;

#[test]
fn counts_at_the_borders_of_runs() {
    let mut random = Random::new(90);
    for count in [0, 1, 2, 16_383, 16_384, 16_385, 32_768, 40_000] {
        for _ in 0..4 {
            let values = some_values(&mut random, count);
            let column = runs::column(&values);
            let parts = Parts::of(&column);
            assert_eq!(parts.numbers[parts::EDITION], 3);
            assert_eq!(
                (parts.numbers[parts::WIDTH], parts.numbers[parts::LEAST]),
                (0, 0)
            );
            in_its_directory(&parts, &values);
            for ordinal in ordinals(count) {
                assert_eq!(value(&column, ordinal), Ok(values[ordinal]));
            }
            let asked: Vec<u32> = ordinals(count).iter().map(|&o| 2 * o as u32).collect();
            Tally::default().try_all(&column, &asked);
            let checked = Checked::new(&column).unwrap();
            for &from in &asked {
                let pairs = runs::ids(count).into_iter().zip(values.iter().copied());
                let rest = pairs.skip(from as usize / 2).take(40);
                assert!(checked.iter_from(from).take(40).eq(rest), "{from}");
                let next = same::next(&column, from.max(7)).unwrap();
                let next = next.map(|it| (it.ordinal, it.value));
                let ordinal = from.max(7).div_ceil(2) as usize;
                let expected = values.get(ordinal).map(|&value| (ordinal as u64, value));
                assert_eq!(next, expected);
            }
        }
    }
}

/// What the directory says is what the values are, and each run starts where the one before ends.
fn in_its_directory(parts: &Parts, values: &[i64]) {
    let divisor = parts.numbers[parts::STEP];
    let mut end = 0;
    for (run, values) in values.chunks(RUN).enumerate() {
        let (smallest, greatest) = (values.iter().min().unwrap(), values.iter().max().unwrap());
        let most = greatest.abs_diff(*smallest) / divisor;
        let width = u64::from(64 - most.leading_zeros());
        let entry = [*smallest as u64, *greatest as u64, end, width];
        assert_eq!(Number::EACH.map(|it| number(parts, run, it)), entry);
        end += (values.len() as u64 * width).div_ceil(8);
    }
    let directory = (ENTRY * values.len().div_ceil(RUN)) as u64;
    assert_eq!(parts.numbers[parts::VALUE_BYTES], directory + end);
}

#[test]
fn widths_of_0_and_64_side_by_side() {
    let values = side_by_side();
    let column = runs::column(&values);
    let parts = Parts::of(&column);
    let entries = [0, 1, 2].map(|run| {
        let of = |it| number(&parts, run, it);
        (of(Number::Start), of(Number::Width))
    });
    assert_eq!(entries, [(0, 0), (0, 64), (131_072, 2)]);
    assert_eq!(parts.values.len(), 75 + 131_072 + 1808);
    for ordinal in ordinals(values.len()) {
        assert_eq!(value(&column, ordinal), Ok(values[ordinal]));
    }
    // Turned round: the run of width 64 ends with the section, and the runs after it take nothing.
    let mut turned = values[RUN..2 * RUN].to_vec();
    turned.extend(vec![7; RUN + 1]);
    let column = runs::column(&turned);
    assert_eq!(Parts::of(&column).values.len(), 75 + 131_072);
    Tally::default().try_all(&column, &[0, 32_766, 32_768, 65_536]);
}

/// Values of one kind in the first run, of another in the second and of a third in the last, at the borders
/// of runs: small ones in steps of 8; a run of width 64 between two of width 0, and the other way round.
#[test]
fn runs_of_three_kinds() {
    let mut random = Random::new(93);
    let small = |random: &mut Random, run: usize| {
        let (low, most) = [(-40, 15), (8_000_000_000, 3), (-16, 1023)][run];
        low + 8 * random.below(most + 1) as i64
    };
    let between = |random: &mut Random, run| [7, random.next() as i64, 7][run];
    let around = |random: &mut Random, run| [random.next() as i64, 7, random.next() as i64][run];
    let kinds: [&dyn Fn(&mut Random, usize) -> i64; 3] = [&small, &between, &around];
    for (kind, divisor) in kinds.into_iter().zip([8, 1, 1]) {
        for count in [0, 1, 16_383, 16_384, 16_385, 40_000] {
            let values: Vec<i64> = (0..count).map(|i| kind(&mut random, i / RUN)).collect();
            let column = runs::column(&values);
            let parts = Parts::of(&column);
            in_its_directory(&parts, &values);
            if count == 40_000 {
                assert_eq!(parts.numbers[parts::STEP], divisor);
            }
            assert_eq!(same::check(&column), Ok(count as u64));
            let read = same::read(&column, count, count);
            assert!(read == Ok((runs::ids(count), values)), "{count}");
        }
    }
}

/// Both columns of a correction may be of any edition, and the part that is handed back is the whole
/// section, with its directory.
#[test]
fn in_layers() {
    let runs = same::write_exactly(&[0, 2, 7], &[150, 140, 135], Edition::Runs, 9);
    let plain = same::write_exactly(&[2, 4], &[0, 255], Edition::Plain, 9);
    for id in 0..9 {
        for (machine, correction) in [(&runs, &plain), (&plain, &runs), (&runs, &runs)] {
            layers::look_up(machine, correction, id).unwrap();
        }
    }
    let part = signalfern::layered_values(&runs, &plain, 7);
    assert!(std::ptr::eq(part, &runs[runs.len() - 26..]));
    // Its one value takes no bits: the directory alone.
    let one = same::write_exactly(&[9], &[-1], Edition::Runs, 9);
    assert_eq!(signalfern::layered_values(&one, &plain, 9).len(), 25);
}

/// All ids that there can be, each with 42: 131064 runs that take no bits.
#[test]
fn two_thousand_million_pairs() {
    let mut parts = Parts::full_blocks(32_766);
    let count = parts.numbers[parts::COUNT];
    (parts.numbers[parts::EDITION], parts.numbers[parts::LEAST]) = (3, 0);
    let mut entry = [0; ENTRY];
    (entry[0], entry[8]) = (42, 42);
    parts.values = entry.repeat(count.div_ceil(RUN as u64) as usize);
    assert_eq!(parts.values.len(), 25 * 131_064);
    let bytes = parts.bytes_with_lengths();
    assert_eq!(same::check(&bytes), Ok(count));
    let last = same::look_up(&bytes, signalfern::MAX_ID).unwrap();
    assert!(matches!(last, Answer::Found { ordinal, value: 42, .. } if ordinal == count - 1));
    assert_eq!(same::first_between(&bytes, 42, 42), Ok(Some(0)));
    assert_eq!(same::first_between(&bytes, 43, i64::MAX), Ok(None));
    assert_eq!(Column::open(&bytes).unwrap().edition(), Edition::Runs);
    // The last run's smallest says 43, and its greatest still skips it; then the other way round.
    let last = bytes.len() - ENTRY;
    for at in [last, last + 8] {
        let mut other = bytes.clone();
        other[at] = 43;
        assert_eq!(same::check(&other), Err(Refusal::Damaged));
        assert_eq!(same::first_between(&other, 43, 43), Ok(None));
    }
}
