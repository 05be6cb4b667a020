//! Edition 2, Lucene 9's packing (document 02, [6]): its widths at their borders, its bytes by hand, the
//! same calls for editions 1 and 2, and a column whose first byte names the other one. (Edition 3: `runs`.)

use crate::common::damage::Tally;
use crate::common::parts::{self, Parts};
use crate::common::{
    bytes, few_ids, same, values_of_width, Random, EDITIONS, LUCENE_WIDTHS, PACKED, POWERS,
};
use signalfern::{Column, Edition, Refusal};

/// Ids 0, 1, ... with these values, in edition 2.
fn lucene(values: &[i64]) -> Vec<u8> {
    let ids: Vec<u32> = (0..values.len() as u32).collect();
    let column = same::write_exactly(&ids, values, Edition::Lucene, 9);
    let count = values.len();
    assert_eq!(same::check(&column), Ok(count as u64));
    assert_eq!(
        same::read(&column, count, count),
        Ok((ids, values.to_vec()))
    );
    column
}

#[test]
fn numbers_of_the_editions() {
    for edition in EDITIONS {
        let number = edition.number();
        assert_eq!(Edition::from_number(number.into()), Some(edition));
        // Without pairs, and of a list that suits a table.
        let plain = edition == Edition::Table;
        let empty = same::write_exactly(&[], &[], edition, 9)[0];
        assert_eq!(empty, if plain { 1 } else { number as u8 });
        let values = [1, i64::MIN, 0, 1];
        let first = same::write_exactly(&[0, 2, 7, 9], &values, edition, 9)[0];
        assert_eq!(first, number as u8);
    }
    assert_eq!(EDITIONS.map(Edition::number), [1, 2, 3, 4]);
    for number in [0, 5, 6, 257, 1 << 32 | 1, u64::MAX] {
        assert_eq!(Edition::from_number(number), None);
    }
    assert_eq!(Edition::default(), Edition::Plain);
}

/// Values, w, and the value section: the low bit of each number first, from the low bit of each byte on.
type Line = (&'static [i64], u64, &'static str);

const BY_HAND: [Line; 10] = [
    // The request's own: 1, 1, 1, 0 are 01 01 01 00 from the low end, 15; then 10 10 00 00, 0A.
    (&[1, 1, 1, 0, 2, 2, 0, 0], 2, "15 0A"),
    (&[], 0, ""),
    (&[5, 5, 5], 0, ""),
    // One bit each, and six spare ones at the high end.
    (&[7, 10], 1, "02"),
    (&[10, 7], 1, "01"),
    // 3 bits would do: four, two to a byte. Nine numbers leave the high half of the last byte.
    (&[0, 1, 2, 3, 4, 5, 6, 7, 5], 4, "10 32 54 76 05"),
    // 200 needs eight.
    (&[0, 200, 3], 8, "00 C8 03"),
    // 9 bits would do: twelve. The digits are 000 100 003, each number's low digit first, and the first of
    // a byte is its low one.
    (&[0, 256, 3], 12, "00 00 10 03 00"),
    // 13 bits would do: sixteen, low byte first.
    (&[0, 4660, 8191], 16, "00 00 34 12 FF 1F"),
    // -2^63, 2^63 - 1 and 0: g 1, all 64 bits.
    (
        &[i64::MIN, i64::MAX, 0],
        64,
        "00 00 00 00 00 00 00 00 FF FF FF FF FF FF FF FF 00 00 00 00 00 00 00 80",
    ),
];

#[test]
fn columns_by_hand() {
    for (values, width, section) in BY_HAND {
        let column = lucene(values);
        let found = Parts::of(&column);
        assert_eq!(found.numbers[parts::EDITION], 2);
        assert_eq!(found.numbers[parts::WIDTH], width, "{values:?}");
        assert_eq!(found.values, bytes(section), "{values:?}");
        let ids: Vec<u32> = (0..values.len() as u32 + 2).collect();
        Tally::default().try_all(&column, &ids);
    }
    // A whole column: the second of document 01's with edition 2, in which no value takes a bit.
    let mut column = bytes("02 01 00 24 03 00 01 01 00 01 00 00 00 00 00 FF 7F 00 00 FF FF");
    column.extend([0; 16]);
    column.extend(bytes("01 00 00 00 06 00 00 00"));
    assert_eq!(
        same::write_exactly(&[65_536], &[-1], Edition::Lucene, 0),
        column
    );
}

/// n pairs whose stored numbers are 0, 1, the greatest and others, as many as there are places for.
fn with_spread(random: &mut Random, count: usize, spread: u64, low: i64) -> Vec<i64> {
    let mut stored = vec![spread, 0, 1];
    stored.resize_with(count.max(3), || random.next() % spread.max(1));
    stored.truncate(count);
    let value = |stored: u64| low.wrapping_add_unsigned(stored);
    stored.into_iter().map(value).collect()
}

/// Each width of the list with the largest spread that fits, and with one more; n from 0 to 9.
#[test]
fn each_width_at_its_borders() {
    let mut random = Random::new(80);
    for (index, &width) in LUCENE_WIDTHS.iter().enumerate() {
        let most = u64::MAX >> (64 - width);
        let one_more = most.checked_add(1).zip(LUCENE_WIDTHS.get(index + 1));
        let cases = [Some((most, &width)), one_more];
        for (spread, &width) in cases.into_iter().flatten() {
            for count in 0..=9 {
                for low in [i64::MIN, i64::MAX.wrapping_sub_unsigned(spread), -1] {
                    if low.checked_add_unsigned(spread).is_none() {
                        continue;
                    }
                    let values = with_spread(&mut random, count, spread, low);
                    let column = lucene(&values);
                    let found = Parts::of(&column).numbers;
                    // With fewer than three values they are equal, or one step apart.
                    let expected = match count {
                        0 | 1 => 0,
                        2 => 1,
                        _ => u64::from(width),
                    };
                    assert_eq!(found[parts::WIDTH], expected, "{values:?}");
                    let bits = count as u64 * expected;
                    assert_eq!(found[parts::VALUE_BYTES], bits.div_ceil(8));
                    let ids: Vec<u32> = (0..count as u32 + 1).collect();
                    Tally::default().try_all(&column, &ids);
                }
            }
        }
    }
}

/// Another width is HEADER, in every call, whatever the bytes after it.
#[test]
fn widths_that_are_not_in_the_list() {
    let sound = Parts::of(&lucene(&[0, 200, 3]));
    for width in 0..=70 {
        let mut other = sound.clone();
        other.numbers[parts::WIDTH] = width;
        other.values.resize((3 * width as usize).div_ceil(8), 0);
        let column = other.bytes_with_lengths();
        let known = width == 0 || LUCENE_WIDTHS.iter().any(|&it| u64::from(it) == width);
        assert_eq!(Column::open(&column).is_ok(), known, "{width}");
        if !known {
            for refused in [same::check(&column), same::look_up(&column, 0).map(|_| 0)] {
                assert_eq!(refused, Err(Refusal::Header), "{width}");
            }
        }
        Tally::default().try_all(&column, &[0, 1, 2, 3]);
        // Edition 1 knows all of them to 64.
        other.numbers[parts::EDITION] = 1;
        let opened = Column::open(&other.bytes_with_lengths()).is_ok();
        assert_eq!(opened, width <= 64, "{width}");
    }
}

/// The same pairs in editions 1 and 2: every call gives the same, but for what the header says.
#[test]
fn both_editions_by_the_same_calls() {
    let mut random = Random::new(81);
    for round in 0..600 {
        let ids = few_ids(&mut random, 40);
        let width = random.below(65) as u32;
        let values = values_of_width(&mut random, ids.len(), width);
        let power = POWERS[round % 10];
        let [one, two] = PACKED.map(|edition| same::write_exactly(&ids, &values, edition, power));
        let asked: Vec<u32> = (ids.iter()).flat_map(|&id| [id, id + 1]).collect();
        for id in asked {
            assert_eq!(same::look_up(&one, id), same::look_up(&two, id), "{id}");
            assert_eq!(same::next(&one, id + 7), same::next(&two, id + 7), "{id}");
        }
        let [one, two] = [&one, &two].map(|column| Parts::of(column));
        assert_eq!(one.ids, two.ids);
        assert_eq!(one.stored(), two.stored());
        for same in [
            parts::COUNT,
            parts::POWER,
            parts::JUMPS,
            parts::LEAST,
            parts::STEP,
        ] {
            assert_eq!(one.numbers[same], two.numbers[same]);
        }
    }
}

/// The column of one edition with the other's number in its first byte: what its bits then say decides.
#[test]
fn the_first_byte_of_the_other_edition() {
    let mut random = Random::new(82);
    let mut told = [0; 18];
    for _ in 0..3000 {
        let ids = few_ids(&mut random, 12);
        let width = random.pick(&[0, 1, 2, 3, 4, 7, 8, 12, 16, 20, 32, 33, 56, 63, 64]);
        let values = values_of_width(&mut random, ids.len(), width);
        for edition in PACKED {
            let mut column = same::write_exactly(&ids, &values, edition, 9);
            column[0] ^= 3;
            Tally::default().try_all(&column, &ids);
            told[same::check(&column).map_or_else(|it| it.number() as usize, |_| 0)] += 1;
        }
    }
    // Taken where no bit is stored, or by chance; HEADER by the width; DAMAGED otherwise.
    assert!(
        told[0] > 300 && told[10] > 300 && told[13] > 300,
        "{told:?}"
    );
    assert_eq!(told[0] + told[10] + told[13], 6000);
}

#[test]
fn the_first_byte_by_hand() {
    // Document 01's three pairs: D0 low bit first is 0, 0, 1 with spare bits set.
    let mut column = crate::common::THREE_PAIRS;
    column[0] = 2;
    assert_eq!(same::check(&column), Err(Refusal::Damaged));
    // The look-up's steps answer all the same: 135 + 5 times 1 for the last.
    let answer = same::look_up(&column, 7);
    let found = signalfern_reference::Answer::Found {
        ordinal: 2,
        value: 140,
        words: 0,
        probes: 2,
    };
    assert_eq!(answer, Ok(found));
    // Widths of 8, 16 and 64 bits differ in the order of their bytes alone.
    let mut column = lucene(&[0, 200, 3]);
    column[0] = 1;
    assert_eq!(
        same::read(&column, 3, 3),
        Ok((vec![0, 1, 2], vec![0, 200, 3]))
    );
    let mut column = lucene(&[0, 0x1234, 0x7FFF]);
    column[0] = 1;
    // 3412 and FF7F are stored now, which is the column of another list.
    assert_eq!(
        same::read(&column, 3, 3),
        Ok((vec![0, 1, 2], vec![0, 0x3412, 0xFF7F]))
    );
    // Edition 2 spends 4 bits where 3 do: in edition 1 that is no column.
    let mut column = lucene(&[0, 7, 3]);
    column[0] = 1;
    assert_eq!(same::check(&column), Err(Refusal::Damaged));
    // And edition 1's 3 bits are no width of edition 2.
    let mut column = same::write_exactly(&[0, 1, 2], &[0, 7, 3], Edition::Plain, 9);
    column[0] = 2;
    assert_eq!(same::check(&column), Err(Refusal::Header));
    assert_eq!(same::open(&column).unwrap_err(), Refusal::Header);
}
