//! The next candidate (document 02, [1]) on bytes that are no column: the look-up's steps, step 5 with
//! document 01's scan, for the target and each id above it in turn. The answers are worked out by hand;
//! the reference has to give the same.

use crate::common::same::{next, HIGH};
use crate::common::{bytes, same, THREE_PAIRS};
use signalfern::{Edition, Refusal, MAX_ID};
use signalfern_reference::Candidate;

type Next = Result<Option<Candidate>, Refusal>;

fn found(id: u32, ordinal: u64, value: i64) -> Next {
    Ok(Some(Candidate { id, ordinal, value }))
}

const NONE: Next = Ok(None);
const BROKEN: Next = Err(Refusal::Broken);

/// A line of a table: what is tried, the bytes put and where, the target, the answer.
type Line = (&'static str, &'static [(usize, u8)], u32, Next);

#[track_caller]
fn hold(column: &[u8], lines: &[Line]) {
    for &(name, changes, target, expected) in lines {
        let mut bytes = column.to_vec();
        for &(at, byte) in changes {
            bytes[at] = byte;
        }
        assert_eq!(next(&bytes, target), expected, "{name}");
    }
}

#[test]
fn without_jump_entries() {
    // 10 bytes of header; block 0 with its head at 10 and its places at 14; n = 3, A = 16, J = 0. A
    // block that is not there is absent, whatever its number.
    const LAST: &[(usize, u8)] = &[(10, 0xFD), (11, 0x7F)];
    let first = 32_765 << 16;
    let lines: [Line; 13] = [
        // Places 9, 2, 7: the scan for 7, 8 or 9 stops at 9, and for 10 nowhere. Halving would find 7.
        (
            "unsorted: the first place at or above",
            &[(14, 9)],
            7,
            found(9, 0, 150),
        ),
        ("unsorted: none", &[(14, 9)], 10, NONE),
        // Places 8, 2, 11.
        (
            "unsorted: the one after",
            &[(14, 8), (18, 11)],
            9,
            found(11, 2, 135),
        ),
        // Places 7, 7, 7.
        (
            "the same place again",
            &[(14, 7), (16, 7)],
            7,
            found(7, 0, 150),
        ),
        (
            "the block is another",
            &[(10, 5)],
            7,
            found(327_680, 0, 150),
        ),
        ("the block is the last", LAST, 7, found(first, 0, 150)),
        (
            "in the last block",
            LAST,
            first + 3,
            found(first + 7, 2, 135),
        ),
        ("after the last", LAST, first + 8, NONE),
        // 32766 is no block of an id.
        (
            "a block past the limit",
            &[(10, 0xFE), (11, 0x7F)],
            HIGH,
            NONE,
        ),
        // 7 places end at 18 > 16; 6 end at 16, but 6 > 3.
        ("data past A", &[(12, 6)], 7, BROKEN),
        ("ordinals past n", &[(12, 5)], 7, BROKEN),
        ("data past A in another block", &[(12, 6)], 65_536, NONE),
        (
            "data past A in a later block",
            &[(10, 5), (12, 6)],
            8,
            BROKEN,
        ),
    ];
    hold(&THREE_PAIRS, &lines);
}

#[test]
fn with_jump_entries() {
    // Id 65536 with -1: 9 bytes of header; block 1 with place 0 at 9; the end block at 15; entries for
    // the blocks 0, 1 and 2 at 21, 29 and 37. n = 1, J = 3, A = 12.
    let mut column = bytes("01 01 00 24 03 00 01 01 00 01 00 00 00 00 00 FF 7F 00 00 FF FF");
    column.extend([0; 16]);
    column.extend(bytes("01 00 00 00 06 00 00 00"));
    let lines: [Line; 11] = [
        (
            "block 0 has the entry of block 1",
            &[],
            7,
            found(65_536, 0, -1),
        ),
        ("past the block", &[], 65_537, NONE),
        // Blocks 2 to 32765 have the last entry.
        (
            "a lower block at the last entry",
            &[(41, 0)],
            65_537,
            BROKEN,
        ),
        ("and far above it", &[(41, 0)], MAX_ID, BROKEN),
        // Entry 0 leads to the end block, which is above block 0; entry 1 finds block 1 all the same.
        (
            "a higher block at an entry",
            &[(25, 6)],
            7,
            found(65_536, 0, -1),
        ),
        // Entry 1 leads to the end block: block 1 is passed over.
        ("the entry of the next", &[(33, 6)], 7, NONE),
        // Block 0, with place 0 alone, where block 1 stood: it is below block 1.
        ("a lower block at an entry", &[(9, 0)], 7, BROKEN),
        ("a start past A", &[(33, 9)], 7, BROKEN),
        ("but not for another block", &[(33, 9)], 131_072, NONE),
        ("an ordinal past n", &[(29, 1)], 7, BROKEN),
        // The end block's number is 32765, its place 65535, and 1 + 1 > 1.
        (
            "an ordinal past n in the last block",
            &[(15, 0xFD)],
            65_537,
            BROKEN,
        ),
    ];
    hold(&column, &lines);
    // The same with an ordinal that fits: the last id that there can be.
    let last: Line = (
        "the end block as the last",
        &[(15, 0xFD), (37, 0)],
        HIGH,
        found(MAX_ID, 0, -1),
    );
    hold(&column, &[last]);
}

#[test]
fn a_dense_block() {
    // Ids 0 to 4095, each value 7, p 9: 11 bytes of header, the rank of stride t at 15 + 2t, and the
    // words at 271. No rank after stride 8 is read, since no bit is set there.
    let ids: Vec<u32> = (0..4096).collect();
    let column = same::write_exactly(&ids, &[7; 4096], Edition::Plain, 9);
    let lines: [Line; 8] = [
        ("set", &[], 600, found(600, 600, 7)),
        ("none", &[(31, 0xFF)], 4096, NONE),
        // Rank FF00 for stride 1. Byte 335 has the bits of 512 to 519.
        ("an inner place of c or more", &[(17, 0xFF)], 512, BROKEN),
        ("before it", &[(17, 0xFF)], 511, found(511, 511, 7)),
        (
            "and of the first bit set",
            &[(17, 0xFF), (335, 0xFC)],
            512,
            BROKEN,
        ),
        ("a bit cleared", &[(335, 0xFC)], 512, found(514, 512, 7)),
        // Rank 4095 makes 4095 of the first place of the stride, and 4096 of the next.
        (
            "the last inner place",
            &[(17, 0x0F), (18, 0xFF)],
            512,
            found(512, 4095, 7),
        ),
        ("and one more", &[(17, 0x0F), (18, 0xFF)], 513, BROKEN),
    ];
    hold(&column, &lines);
}

#[test]
fn a_value_that_does_not_fit() {
    // Ids 0 and 9 with 2^63 - 8 and 2^63 - 1: divisor 7 at byte 16, stored 0 and 1.
    let column = same::write_exactly(&[0, 9], &[i64::MAX - 7, i64::MAX], Edition::Plain, 9);
    assert_eq!(column[16], 7);
    let lines: [Line; 3] = [
        ("the greatest value", &[], 8, found(9, 1, i64::MAX)),
        ("one more", &[(16, 8)], 8, BROKEN),
        ("no more of it", &[(16, 8)], 10, NONE),
    ];
    hold(&column, &lines);
}

#[test]
fn a_refusal_keeps_the_cursor() {
    // The cursor is 7.
    let mut wild = THREE_PAIRS;
    wild[12] = 6;
    let cases: [(&[u8], u32, Refusal); 9] = [
        (&THREE_PAIRS, MAX_ID + 1, Refusal::Id),
        (&[], u32::MAX, Refusal::Id),
        (&[], 6, Refusal::Back),
        (&[], 9, Refusal::Short { bytes: 0 }),
        (&[1, 0x80, 0], 9, Refusal::Number { place: 2 }),
        (&[5], 9, Refusal::Edition),
        (&[1, 3, 6, 16, 0, 2, 0, 1, 1], 9, Refusal::Header),
        (&THREE_PAIRS[..26], 9, Refusal::Length),
        (&wild, 9, Refusal::Broken),
    ];
    for (bytes, target, refusal) in cases {
        assert_eq!(next(bytes, target), Err(refusal));
    }
}
