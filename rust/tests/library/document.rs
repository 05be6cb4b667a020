//! Document 01's own cases: "Both sides of each line", by their bytes; with the divisor of document
//! 02, [2].

use crate::common::parts::Parts;
use crate::common::{bytes, same, Random};
use signalfern::{Column, Edition, Refusal, MAX_COUNT, MAX_ID};
use signalfern_reference::Answer;

/// The column of edition 1.
fn list(ids: &[u32], values: &[i64], power: u32) -> Vec<u8> {
    let column = same::write_exactly(ids, values, Edition::Plain, power);
    assert_eq!(same::check(&column), Ok(ids.len() as u64));
    let pairs = same::read(&column, ids.len(), ids.len());
    assert_eq!(pairs, Ok((ids.to_vec(), values.to_vec())));
    column
}

#[test]
fn three_pairs() {
    let column = list(&[0, 2, 7], &[150, 140, 135], 9);
    let expected =
        "01 03 09 10 00 02 8E 02 05 01 00 00 02 00 00 00 02 00 07 00 FF 7F 00 00 FF FF D0";
    assert_eq!(column, bytes(expected));
    assert_eq!(column.len(), 27);
}

#[test]
fn no_pairs() {
    let mut expected = bytes("01 00 09 0E 01 00 00 01 00 FF 7F 00 00 FF FF");
    expected.extend([0; 8]);
    assert_eq!(list(&[], &[], 9), expected);
    for id in [0, 1, 65_536, MAX_ID] {
        let absent = Answer::Absent {
            words: 0,
            probes: 0,
        };
        assert_eq!(same::look_up(&expected, id), Ok(absent));
    }
}

#[test]
fn one_pair_in_block_one() {
    let mut expected = bytes("01 01 00 24 03 00 01 01 00 01 00 00 00 00 00 FF 7F 00 00 FF FF");
    expected.extend([0; 16]);
    expected.extend(bytes("01 00 00 00 06 00 00 00"));
    assert_eq!(list(&[65_536], &[-1], 0), expected);
    assert_eq!(expected.len(), 45);
}

#[test]
fn packed_numbers() {
    let ids: Vec<u32> = (0..8).collect();
    let column = list(&ids, &[1, 1, 1, 0, 2, 2, 0, 0], 9);
    assert_eq!(Parts::of(&column).values, bytes("54 A0"));
}

#[test]
fn divisor_and_width() {
    for (values, divisor, width) in [
        (&[150, 140, 135][..], 5, 2),
        (&[3, 4, 3000], 1, 12),
        (&[3, 3000], 2997, 1),
        (&[i64::MIN, i64::MAX], u64::MAX, 1),
        (&[i64::MIN, i64::MAX, 0], 1, 64),
        (&[i64::MIN, 0], 1 << 63, 1),
        (&[i64::MIN, i64::MIN], 1, 0),
        (&[6, 6, 6], 1, 0),
        (&[0, 0], 1, 0),
        (&[0, i64::MAX], i64::MAX as u64, 1),
        (&[-6, 6], 12, 1),
        (&[-6, 6, 0], 6, 2),
    ] {
        let ids: Vec<u32> = (0..values.len() as u32).collect();
        let bytes = list(&ids, values, 0);
        let column = Column::open(&bytes).unwrap();
        let fields = (column.divisor(), column.width());
        assert_eq!(fields, (divisor, width), "{values:?}");
    }
}

#[test]
fn smallest_possible_value() {
    let column = list(&[5], &[i64::MIN], 9);
    assert_eq!(column[6..16], bytes("FF FF FF FF FF FF FF FF FF 01"));
}

#[test]
fn rank_entries() {
    // Strides of 128 places that hold 5, 1 and 2 ids, then enough for a dense block.
    let mut ids = vec![3, 40, 41, 90, 127, 200, 256, 383];
    ids.extend(400..5000);
    let values = vec![0; ids.len()];
    let parts = Parts::of(&list(&ids, &values, 7));
    assert_eq!(parts.ids[4..10], bytes("00 00 00 05 00 06"));
}

#[test]
fn header_numbers() {
    // Each with the byte count or the place that document 02, [4] asks for.
    let short = |bytes| Refusal::Short { bytes };
    let number = |place| Refusal::Number { place };
    for (head, refusal) in [
        ("", short(0)),
        ("80", short(1)),
        ("80 00", number(1)),
        ("81 80 80 80 80 80 80 80 80", short(9)),
        ("81 80 80 80 80 80 80 80 80 00", number(9)),
        ("81 80 80 80 80 80 80 80 80 01", Refusal::Edition),
        ("81 80 80 80 80 80 80 80 80 02", number(9)),
        ("81 80 80 80 80 80 80 80 80 80", number(9)),
        ("81 80 80 80 80 80 80 80 80 81 00", number(9)),
        ("00", Refusal::Edition),
        ("02", short(1)),
        ("03", short(1)),
        ("04", short(1)),
        ("05", Refusal::Edition),
        ("01", short(1)),
        // A rank power that is not allowed, and the last number is cut off.
        ("01 00 06 0E 01 00 00 01", short(8)),
        ("01 00 06 0E 01 00 00 01 80 00", number(9)),
        ("01 00 06 0E 01 00 00 01 00", Refusal::Header),
        ("01 00 09 0E 01 00 00 01 00", Refusal::Length),
    ] {
        let bytes = bytes(head);
        assert_eq!(same::check(&bytes), Err(refusal), "{head}");
        assert_eq!(same::read(&bytes, 3, 2).unwrap_err(), refusal, "{head}");
        assert_eq!(same::open(&bytes).unwrap_err(), refusal, "{head}");
        assert_eq!(same::look_up(&bytes, 0), Err(refusal), "{head}");
        let above = same::look_up(&bytes, MAX_ID + 1);
        assert_eq!(above, Err(Refusal::Id), "{head}");
    }
}

#[test]
fn order_and_range() {
    let order = |index| Err(Refusal::Order { index });
    let range = |index| Err(Refusal::Range { index });
    assert_eq!(
        same::write(&[4, 4], &[1, 2], Edition::Plain, 9, 100),
        order(1)
    );
    assert_eq!(
        same::write(&[4, 5, 3, 2], &[0; 4], Edition::Plain, 9, 100),
        order(2)
    );
    assert_eq!(
        same::write(&[MAX_ID + 1], &[1], Edition::Plain, 9, 100),
        range(0)
    );
    let far = [7, MAX_ID, MAX_ID + 1, u32::MAX];
    assert_eq!(same::write(&far, &[0; 4], Edition::Plain, 9, 100), range(2));
    // The whole list is tested for its order before any id for its range.
    let both = [MAX_ID + 1, 5];
    assert_eq!(
        same::write(&both, &[0; 2], Edition::Plain, 9, 100),
        order(1)
    );
    assert_eq!(
        same::write(&both, &[0; 2], Edition::Plain, 6, 100),
        Err(Refusal::Power)
    );
    assert_eq!(
        same::write(&both, &[0; 3], Edition::Plain, 6, 100),
        Err(Refusal::Lengths)
    );

    let last = list(&[MAX_ID], &[12], 9);
    let column = Column::open(&last).unwrap();
    assert_eq!(column.jump_count(), 32_767);
    let found = Answer::Found {
        ordinal: 0,
        value: 12,
        words: 0,
        probes: 1,
    };
    assert_eq!(same::look_up(&last, MAX_ID), Ok(found));
    let absent = Answer::Absent {
        words: 0,
        probes: 1,
    };
    assert_eq!(same::look_up(&last, MAX_ID - 1), Ok(absent));
}

#[test]
fn the_block_after_the_last() {
    // Block 32766 would need one jump entry more than there may be.
    let mut parts = Parts::of(&list(&[MAX_ID], &[12], 9));
    parts.ids[0] = 0xFE;
    assert_eq!(parts.ids[..2], [0xFE, 0x7F]);
    assert_eq!(same::check(&parts.bytes()), Err(Refusal::Damaged));
    let last = parts.ids.len() - 8;
    parts.ids.extend_from_within(last..);
    parts.ids.copy_within(last - 8..last, last);
    parts.numbers[crate::common::parts::JUMPS] += 1;
    assert_eq!(
        same::check(&parts.bytes_with_lengths()),
        Err(Refusal::Header)
    );
}

#[test]
fn block_sizes() {
    let mut random = Random::new(1);
    for (count, power, size) in [
        (4095, 9, 8194),
        (4096, 9, 8452),
        (4096, 0, 8196),
        (4096, 7, 9220),
        (65_535, 15, 8200),
        (65_536, 9, 4),
    ] {
        let ids = crate::common::block_ids(&mut random, 0, count);
        let bytes = list(&ids, &vec![3; count], power);
        let column = Column::open(&bytes).unwrap();
        assert_eq!(column.id_bytes(), size + 6, "{count} ids at power {power}");
        assert_eq!(column.jump_count(), 0);
    }
}

#[test]
fn powers() {
    for power in (0..40).chain([255, 256 + 9, u32::MAX]) {
        let result = same::write(&[1], &[1], Edition::Plain, power, 100);
        let allowed = signalfern::power_allowed(power);
        assert_eq!(
            result.err(),
            (!allowed).then_some(Refusal::Power),
            "{power}"
        );
    }
}

#[test]
fn a_column_of_all_ids() {
    // Every id that there is, with one value: some 393 KB.
    let column = Parts::full_blocks(32_766).bytes();
    assert_eq!(same::check(&column), Ok(MAX_COUNT));
    let needed = MAX_COUNT as usize;
    assert_eq!(same::read(&column, 10, 10), Err(Refusal::Buffer { needed }));
    for id in [0, 1, 65_535, 65_536, 1 << 30, MAX_ID - 1, MAX_ID] {
        let found = Answer::Found {
            ordinal: u64::from(id),
            value: 42,
            words: 0,
            probes: 0,
        };
        assert_eq!(same::look_up(&column, id), Ok(found));
    }
    // One pair too many, by the limits and by the header.
    let mut parts = Parts::of(&column);
    parts.numbers[crate::common::parts::COUNT] += 1;
    assert_eq!(same::check(&parts.bytes()), Err(Refusal::Header));
    parts.numbers[crate::common::parts::COUNT] -= 2;
    assert_eq!(same::check(&parts.bytes()), Err(Refusal::Damaged));
}
