//! Step 5 by halving (document 02, [8]): its probes in blocks of few entries and of many, and its
//! answers where the entries do not ascend.

use crate::common::parts::Parts;
use crate::common::{same, Random};
use signalfern::{Edition, Refusal};
use signalfern_reference::{self as reference, Answer};

/// A column with these places in one block; the value of each is ten times its index.
fn column(block: u32, places: &[u16]) -> Vec<u8> {
    let ids: Vec<u32> = (places.iter())
        .map(|&place| block << 16 | u32::from(place))
        .collect();
    let values: Vec<i64> = (0..places.len() as i64).map(|index| 10 * index).collect();
    same::write_exactly(&ids, &values, Edition::Plain, 9)
}

/// The answer for the place at an index, or for none, after so many probes.
fn answer(index: Option<usize>, probes: u64) -> Result<Answer, Refusal> {
    Ok(match index {
        Some(index) => Answer::Found {
            ordinal: index as u64,
            value: 10 * index as i64,
            words: 0,
            probes,
        },
        None => Answer::Absent { words: 0, probes },
    })
}

#[test]
fn no_entry_one_two_and_three() {
    // Worked out by hand: the places, the place asked for, its index and the probes.
    type Line = (&'static [u16], u16, Option<usize>, u64);
    let lines: [Line; 18] = [
        // The only block is the end block.
        (&[], 5, None, 0),
        // Entry 0.
        (&[5], 5, Some(0), 1),
        (&[5], 4, None, 1),
        (&[5], 6, None, 1),
        // (0 + 2) div 2 = 1, so 9 comes first; then, for less, 5.
        (&[5, 9], 5, Some(0), 2),
        (&[5, 9], 9, Some(1), 1),
        (&[5, 9], 4, None, 2),
        (&[5, 9], 7, None, 2),
        (&[5, 9], 10, None, 1),
        // 9, then 5 for less and 12 for more.
        (&[5, 9, 12], 5, Some(0), 2),
        (&[5, 9, 12], 9, Some(1), 1),
        (&[5, 9, 12], 12, Some(2), 2),
        (&[5, 9, 12], 0, None, 2),
        (&[5, 9, 12], 4, None, 2),
        (&[5, 9, 12], 8, None, 2),
        (&[5, 9, 12], 10, None, 2),
        (&[5, 9, 12], 13, None, 2),
        (&[5, 9, 12], 65_535, None, 2),
    ];
    for (places, place, index, probes) in lines {
        for block in [0, 1, 40] {
            let asked = block << 16 | u32::from(place);
            let answered = same::look_up(&column(block, places), asked);
            assert_eq!(answered, answer(index, probes), "{place} of {places:?}");
        }
    }
}

#[test]
fn as_many_as_a_sparse_block_holds() {
    // 4095 entries are halved evenly twelve times: entry i, from 0, is met after 12 less the zeros
    // that i + 1 ends in, and what is not there after all 12. With 4094 the last of the twelfth
    // probes has no entry: each middle stays where it was.
    for count in [4094, 4095] {
        let places: Vec<u16> = (0..count).map(|index| 16 * index + 8).collect();
        let column = column(3, &places);
        let look_up = |place: u16| same::look_up(&column, 3 << 16 | u32::from(place));
        for index in 0..count {
            let (place, probes) = (16 * index + 8, 12 - (index + 1).trailing_zeros());
            let found = answer(Some(usize::from(index)), u64::from(probes));
            assert_eq!(look_up(place), found, "entry {index}");
            assert_eq!(look_up(place - 1), answer(None, 12), "before entry {index}");
        }
        let above = if count == 4095 { 12 } else { 11 };
        assert_eq!(look_up(16 * count), answer(None, above));
        assert_eq!(look_up(65_535), answer(None, above));
        // The ends, without a formula.
        assert_eq!(look_up(0), answer(None, 12));
        assert_eq!(look_up(8), answer(Some(0), 12));
        let last = usize::from(count) - 1;
        assert_eq!(look_up(places[last]), answer(Some(last), above));
        assert_eq!(look_up(places[2047]), answer(Some(2047), 1));
    }
}

#[test]
fn no_more_than_the_bits_of_the_count() {
    let mut random = Random::new(40);
    for count in (1..=130).chain([255, 256, 1023, 1024, 2047, 2048]) {
        let ids = crate::common::block_ids(&mut random, 1, count);
        let column = signalfern::write_to_vec(&ids, &vec![0; count], Edition::Plain, 9).unwrap();
        let mut most = 0;
        for id in ids.iter().flat_map(|&id| [id - 1, id, id + 1]) {
            if let Ok(Answer::Found { probes, .. } | Answer::Absent { probes, .. }) =
                same::look_up(&column, id)
            {
                most = most.max(probes);
            }
        }
        assert_eq!(
            most,
            u64::from(usize::BITS - count.leading_zeros()),
            "{count}"
        );
    }
}

/// The column of so many pairs, with these entries in place of its own.
fn with_entries(entries: &[u16]) -> Vec<u8> {
    let ascending: Vec<u16> = (0..entries.len() as u16).collect();
    let mut parts = Parts::of(&column(0, &ascending));
    parts.ids[4..4 + 2 * entries.len()].copy_from_slice(&bytes(entries));
    parts.bytes()
}

fn bytes(entries: &[u16]) -> Vec<u8> {
    let entries = entries.iter();
    entries.flat_map(|entry| entry.to_le_bytes()).collect()
}

#[test]
fn entries_that_do_not_ascend() {
    // Worked out by hand: the entries, the place asked for, what document 01's scan would say, and
    // what halving says with its probes.
    type Line = (&'static [u16], u16, Option<usize>, (Option<usize>, u64));
    let lines: [Line; 9] = [
        // The scan stops at 7; halving begins with the second.
        (&[7, 3], 3, None, (Some(1), 1)),
        (&[7, 3], 7, Some(0), (None, 1)),
        (&[8, 8], 8, Some(0), (Some(1), 1)),
        (&[9, 2, 7], 2, None, (Some(1), 1)),
        // 1 is below 5, and so is 3.
        (&[5, 1, 3], 5, Some(0), (None, 2)),
        (&[4, 4, 4], 4, Some(0), (Some(1), 1)),
        // 5 is the third of four.
        (&[1, 9, 5, 7], 5, None, (Some(2), 1)),
        // Entry 2 is 9, above 6; entry 1 is 8, above 6; entry 0 is 6.
        (&[6, 8, 9, 6], 6, Some(0), (Some(0), 3)),
        // Entry 3 is 0, below 4; entry 5 is 8, above it; entry 4 is 4.
        (&[4, 9, 9, 0, 4, 8, 1], 4, Some(0), (Some(4), 3)),
    ];
    for (entries, place, scanned, halved) in lines {
        let column = with_entries(entries);
        assert_eq!(same::check(&column), Err(Refusal::Damaged));
        assert_eq!(
            reference::scan(&bytes(entries), place),
            scanned,
            "{entries:?}"
        );
        let answered = same::look_up(&column, u32::from(place));
        assert_eq!(
            answered,
            answer(halved.0, halved.1),
            "{place} of {entries:?}"
        );
    }
}

#[test]
fn entries_in_any_order() {
    let mut random = Random::new(41);
    let (mut asked, mut otherwise) = (0, 0);
    for round in 0..600 {
        let count = random.pick(&[1, 2, 3, 4, 7, 20, 100, 1000, 4094, 4095]);
        // Few numbers, so that many are equal; or any; or ascending but for a few.
        let most = random.pick(&[4, 100, 65_536]);
        let mut entries: Vec<u16> = (0..count).map(|_| random.below(most) as u16).collect();
        if round % 3 == 0 {
            entries.sort_unstable();
            let last = random.below(count);
            entries.swap(0, last);
        }
        let column = with_entries(&entries);
        let header = same::open(&column).unwrap().header();
        for _ in 0..40 {
            let place = match random.below(3) {
                0 => random.below(most) as u16,
                _ => random.pick(&entries),
            };
            let answered = same::look_up(&column, u32::from(place));
            assert_eq!(
                same::look_up_in(header, &column, u32::from(place)),
                answered
            );
            let scanned = reference::scan(&bytes(&entries), place);
            let found = match answered {
                Ok(Answer::Found { ordinal, .. }) => Some(ordinal as usize),
                _ => None,
            };
            asked += 1;
            otherwise += usize::from(found != scanned);
        }
    }
    // They do tell the two rules apart.
    assert!(otherwise > asked / 4, "{otherwise} of {asked}");
}
