//! The pair with an ordinal: on columns the pair list's, on other bytes what the steps give; and the iterators that go
//! by it.

use crate::common::damage::{large_columns, small_columns, Tally};
use crate::common::parts::{self, Parts};
use crate::common::{
    block_ids, bytes, changes, few_ids, ids_of, same, values_of_width, Random, BLOCK_COUNTS,
    EDITIONS, POWERS, THREE_PAIRS,
};
use signalfern::{Column, Edition, Header, Refusal};
use signalfern_reference::Candidate;

type Pair = Result<Option<Candidate>, Refusal>;

const NONE: Pair = Ok(None);
const BROKEN: Pair = Err(Refusal::Broken);

fn found(id: u32, ordinal: u64, value: i64) -> Pair {
    Ok(Some(Candidate { id, ordinal, value }))
}

/// Asks for these ordinals of the list's column, and for the ones that are past it.
#[track_caller]
fn as_the_list(
    ids: &[u32],
    values: &[i64],
    edition: Edition,
    power: u32,
    ordinals: impl IntoIterator<Item = usize>,
) {
    let column = signalfern::write_to_vec(ids, values, edition, power).unwrap();
    let header = Column::open(&column).unwrap().header();
    let past = [
        ids.len() as u64,
        ids.len() as u64 + 1,
        u64::MAX,
        1 << 32,
        1 << 63,
    ];
    for ordinal in ordinals.into_iter().map(|it| it as u64).chain(past) {
        let listed = ids.get(ordinal as usize).map(|&id| Candidate {
            id,
            ordinal,
            value: values[ordinal as usize],
        });
        assert_eq!(same::pair_at(&column, ordinal), Ok(listed), "{ordinal}");
        let opened = same::pair_at_in(header, &column, ordinal);
        assert_eq!(opened, Ok(listed), "{ordinal}");
    }
}

/// Ordinals at the borders of a list of so many, and some more.
fn some_ordinals(random: &mut Random, count: usize) -> Vec<usize> {
    let borders = [0, 1, 63, 64, count / 2, count.saturating_sub(1)];
    let any = (0..40).map(|_| random.below(count.max(1)));
    let all = borders.into_iter().chain(any);
    all.filter(|&ordinal| ordinal < count).collect()
}

#[test]
fn every_block_kind_in_every_edition_at_every_power() {
    let mut random = Random::new(150);
    for count in BLOCK_COUNTS {
        for power in POWERS {
            for edition in EDITIONS {
                let number = random.pick(&[0, 1, 40]);
                let ids = block_ids(&mut random, number, count);
                let width = random.below(65) as u32;
                let values = values_of_width(&mut random, count, width);
                let ordinals = some_ordinals(&mut random, count);
                as_the_list(&ids, &values, edition, power, ordinals);
            }
        }
    }
}

#[test]
fn over_blocks_and_entries() {
    let mut random = Random::new(151);
    for blocks in [
        &[(0, 3), (1, 1)][..],
        &[(1, 1)],
        &[(2, 5), (3, 65_536), (9, 4096)],
        &[(5, 4095), (6, 4096), (100, 2)],
        &[(0, 1), (32_765, 1)],
        &[(32_764, 5000), (32_765, 65_535)],
        &[(1, 2), (2, 2), (3, 2), (9, 2), (10, 70), (12, 1)],
    ] {
        // At the borders of blocks.
        let mut border = 0;
        let mut near = Vec::new();
        for (_, count) in blocks {
            border += count;
            near.extend([border - 1, border, border + 1]);
        }
        for edition in EDITIONS {
            let ids = ids_of(&mut random, blocks);
            let values = values_of_width(&mut random, ids.len(), 9);
            let power = random.pick(&POWERS);
            let mut ordinals = some_ordinals(&mut random, ids.len());
            ordinals.extend(near.iter().filter(|&&ordinal| ordinal < ids.len()));
            as_the_list(&ids, &values, edition, power, ordinals);
        }
    }
}

#[test]
fn every_ordinal_of_short_lists() {
    let mut random = Random::new(152);
    for _ in 0..2000 {
        let ids = few_ids(&mut random, 40);
        let width = random.below(65) as u32;
        let values = values_of_width(&mut random, ids.len(), width);
        let (edition, power) = (random.pick(&EDITIONS), random.pick(&POWERS));
        as_the_list(&ids, &values, edition, power, 0..ids.len());
    }
}

/// A line of a table: what is tried, the bytes put and where, the ordinal, the answer.
type Line = (&'static str, &'static [(usize, u8)], u64, Pair);

#[track_caller]
fn hold(column: &[u8], lines: &[Line]) {
    for &(name, changes, ordinal, expected) in lines {
        let mut bytes = column.to_vec();
        for &(at, byte) in changes {
            bytes[at] = byte;
        }
        assert_eq!(same::pair_at(&bytes, ordinal), expected, "{name}");
    }
}

/// Worked out by hand from the steps.
#[test]
fn on_bytes_that_are_no_column() {
    // 10 bytes of header; block 0 with its head at 10 and its places at 14; n = 3, A = 16, J = 0.
    let lines: [Line; 10] = [
        ("sound", &[], 1, found(2, 1, 140)),
        ("past n", &[(10, 0xFF), (11, 0xFF)], 3, NONE),
        ("unsorted", &[(14, 9)], 0, found(9, 0, 150)),
        (
            "the block is another",
            &[(10, 5)],
            2,
            found(327_687, 2, 135),
        ),
        (
            "the block is the last",
            &[(10, 0xFD), (11, 0x7F)],
            0,
            found(32_765 << 16, 0, 150),
        ),
        ("and one past it", &[(10, 0xFE), (11, 0x7F)], 0, BROKEN),
        // Of 7 places the data end at 18 > 16; 6 end at 16, but 6 > 3.
        ("data past A", &[(12, 6)], 0, BROKEN),
        ("ordinals past n", &[(12, 5)], 0, BROKEN),
        // Of two ids, ordinal 2 is not one of the block's.
        ("the last but one", &[(12, 1)], 1, found(2, 1, 140)),
        ("past the block", &[(12, 1)], 2, BROKEN),
    ];
    hold(&THREE_PAIRS, &lines);
    // Id 65536 with -1: 9 bytes of header; block 1 with place 0 at 9; the end block at 15; entries for the blocks 0, 1
    // and 2 at 21, 29 and 37, of ordinals 0, 0 and 1. n = 1, J = 3, A = 12. Halved: entry 1 at or below, entry 2 above.
    let mut column = bytes("01 01 00 24 03 00 01 01 00 01 00 00 00 00 00 FF 7F 00 00 FF FF");
    column.extend([0; 16]);
    column.extend(bytes("01 00 00 00 06 00 00 00"));
    let lines: [Line; 7] = [
        ("sound", &[], 0, found(65_536, 0, -1)),
        (
            "not asked: entry 0",
            &[(21, 9), (25, 9)],
            0,
            found(65_536, 0, -1),
        ),
        // Entry 2 of ordinal 0 leads to the end block, whose number is not 2.
        ("entry 2 at or below", &[(37, 0)], 0, BROKEN),
        ("and to block 1", &[(37, 0), (41, 0)], 0, BROKEN),
        (
            "which is block 2",
            &[(37, 0), (41, 0), (9, 2)],
            0,
            found(131_072, 0, -1),
        ),
        // Entry 1 above the ordinal: entry 0, whose block is number 1.
        ("entry 1 above", &[(29, 1)], 0, BROKEN),
        ("a start past A", &[(33, 9)], 0, BROKEN),
    ];
    hold(&column, &lines);
    // Ids 0 to 4095, each value 7, p 9: the rank of stride t at 15 + 2t, and the words at 271; 128 strides.
    let ids: Vec<u32> = (0..4096).collect();
    let column = same::write_exactly(&ids, &[7; 4096], Edition::Plain, 9);
    let lines: [Line; 6] = [
        ("sound", &[], 600, found(600, 600, 7)),
        // Rank 600 for stride 1: its first place is ordinal 600.
        (
            "a greater rank",
            &[(17, 2), (18, 88)],
            600,
            found(512, 600, 7),
        ),
        ("below it", &[(17, 2), (18, 88)], 599, BROKEN),
        // Places 512 to 514 are cleared: ordinal 600 is 88 places on.
        ("cleared bits", &[(335, 0xF8)], 600, found(603, 600, 7)),
        ("not enough bits", &[(335, 0xF8)], 1023, BROKEN),
        // Rank 65535 for stride 64, which is probed first: the last at or below is stride 63.
        (
            "a rank above",
            &[(15 + 128, 0xFF), (16 + 128, 0xFF)],
            0,
            found(0, 0, 7),
        ),
    ];
    hold(&column, &lines);
}

#[test]
fn what_is_refused_in_which_order() {
    let column = THREE_PAIRS;
    let cases: [(&[u8], Refusal); 5] = [
        (&[], Refusal::Short { bytes: 0 }),
        (&[1, 0x80, 0], Refusal::Number { place: 2 }),
        (&[5], Refusal::Edition),
        (&[1, 3, 6, 16, 0, 2, 0, 1, 1], Refusal::Header),
        (&column[..26], Refusal::Length),
    ];
    for (bytes, refusal) in cases {
        // Before none is answered.
        for ordinal in [0, 2, 3, u64::MAX] {
            assert_eq!(same::pair_at(bytes, ordinal), Err(refusal));
        }
    }
    let opened = Column::open(&column).unwrap().header();
    let at = |header: Header, bytes: &[u8], ordinal| same::pair_at_in(header, bytes, ordinal);
    assert_eq!(at(opened, &column, 2), found(7, 2, 135));
    for ordinal in [0, 3] {
        assert_eq!(at(opened, &column[1..], ordinal), Err(Refusal::Length));
        let mut other = opened;
        other.power = 6;
        assert_eq!(at(other, &column[1..], ordinal), Err(Refusal::Header));
        other.edition = 0;
        assert_eq!(at(other, &column, ordinal), Err(Refusal::Header));
        assert_eq!(at(Header::default(), &[], ordinal), Err(Refusal::Header));
    }
}

#[test]
fn on_changed_bytes_and_wild_headers() {
    let mut random = Random::new(153);
    let mut tally = Tally::default();
    let mut columns = small_columns(&mut random);
    columns.extend(large_columns(&mut random));
    let mut told = [0; 2];
    for column in &columns {
        let sound = Parts::of(column);
        let count = sound.numbers[parts::COUNT];
        for _ in 0..60 {
            let ordinal = random.next() % (count + 2);
            let mut bytes = column.clone();
            let at = random.below(bytes.len().min(400));
            bytes[at] ^= 1 << random.below(8);
            tally.count(same::pair_at(&bytes, ordinal).err());
            let header = same::open(column).unwrap().header();
            let header = changes::wild(&mut random, header, bytes.len() as u64);
            tally.count(same::pair_at_in(header, &bytes, ordinal).err());
            if count > 0 {
                // Other numbers and counts of blocks, other entries, ranks and words.
                let changed = changes::changed(&mut random, &sound);
                let pair = same::pair_at(&changed, ordinal);
                told[usize::from(pair.is_ok())] += 1;
            }
        }
    }
    tally.has(&[0, 8, 9, 10, 11, 15]);
    assert!(told.iter().all(|&count| count > 100), "{told:?}");
}
