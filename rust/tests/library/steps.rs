//! The look-up's steps one by one: columns with a byte or two changed, so that a certain step fails
//! or an earlier one answers. The answers are worked out by hand from document 01, "The look-up, step
//! by step"; the reference has to give the same.

use crate::common::damage::Tally;
use crate::common::{same, THREE_PAIRS};
use signalfern::{Edition, Refusal, MAX_ID};
use signalfern_reference::Answer;

const BROKEN: Result<Answer, Refusal> = Err(Refusal::Broken);

fn found(ordinal: u64, value: i64, words: u64, probes: u64) -> Result<Answer, Refusal> {
    Ok(Answer::Found {
        ordinal,
        value,
        words,
        probes,
    })
}

fn absent(words: u64, probes: u64) -> Result<Answer, Refusal> {
    Ok(Answer::Absent { words, probes })
}

/// A line of a table: what is tried, the bytes put and where, the id, the answer.
type Line = (
    &'static str,
    &'static [(usize, u8)],
    u32,
    Result<Answer, Refusal>,
);

fn hold(column: &[u8], lines: &[Line]) {
    for &(name, changes, id, expected) in lines {
        let mut bytes = column.to_vec();
        for &(at, byte) in changes {
            bytes[at] = byte;
        }
        assert_eq!(same::look_up(&bytes, id), expected, "{name}");
        // From an opened column too, and whatever the check and the reading say.
        Tally::default().try_all(&bytes, &[id]);
    }
}

#[test]
fn without_jump_entries() {
    // 10 bytes of header; block 0 with its head at 10 and its places at 14; the end block at 20; the
    // stored numbers 3, 1, 0 at 26. n = 3, L = A = 16, J = 0.
    let lines: [Line; 8] = [
        ("step 5: place 2 at index 1", &[], 2, found(1, 140, 0, 1)),
        // The places are 9, 2, 7: the probe in the middle is 2, whatever stands before it.
        (
            "step 5: a greater place before it",
            &[(14, 9)],
            2,
            found(1, 140, 0, 1),
        ),
        // Block 5 and place 2: 5 * 65536 + 2.
        (
            "step 3: the only block is the id's",
            &[(10, 5)],
            327_682,
            found(1, 140, 0, 1),
        ),
        (
            "step 3: a lower block, no entries",
            &[],
            65_538,
            absent(0, 0),
        ),
        // 6 places end at 4 + 12 = 16 = A, but o + c = 6 > 3; 7 end at 18.
        ("step 4: n is passed, A is not", &[(12, 5)], 2, BROKEN),
        ("step 4: the data pass A", &[(12, 6)], 2, BROKEN),
        (
            "step 3 comes before step 4",
            &[(12, 6)],
            65_538,
            absent(0, 0),
        ),
        // o + c = 4.
        ("step 4: one id more than n", &[(12, 3)], 2, BROKEN),
    ];
    hold(&THREE_PAIRS, &lines);
}

#[test]
fn with_jump_entries() {
    // 9 bytes of header; block 1 with place 0 at 9; the end block at 15; entries for blocks 0, 1 and
    // the end block at 21, 29 and 37, each the ids before and then the start. n = 1, L = 36, J = 3,
    // A = 12.
    let mut column = vec![
        0x01, 0x01, 0x00, 0x24, 0x03, 0x00, 0x01, 0x01, 0x00, 0x01, 0x00, 0x00, 0x00, 0x00, 0x00,
        0xFF, 0x7F, 0x00, 0x00, 0xFF, 0xFF,
    ];
    column.extend([0; 16]);
    column.extend([0x01, 0x00, 0x00, 0x00, 0x06, 0x00, 0x00, 0x00]);
    let lines: [Line; 9] = [
        ("step 1: the block's entry", &[], 65_536, found(0, -1, 0, 1)),
        // 9 + 4 = 13 > 12.
        ("step 2: the start passes A", &[(33, 9)], 65_536, BROKEN),
        ("step 2: a start of 2^31", &[(36, 0x80)], 65_536, BROKEN),
        (
            "step 3: a lower block at the entry",
            &[(9, 0)],
            65_536,
            BROKEN,
        ),
        (
            "step 3: a higher block at the entry",
            &[(9, 2)],
            65_536,
            absent(0, 0),
        ),
        // Entry min(32765, 2) leads to the end block, number 32767.
        ("step 3: past the last entry", &[], MAX_ID, absent(0, 0)),
        // Start 8 is the last with 8 + 4 <= 12. Bytes 17 to 20 are block 0, count 65536: k = 0 is
        // the id's block, and o + c passes n. For block 1 k is below.
        ("step 2: a start of A - 4", &[(25, 8)], 7, BROKEN),
        ("step 3: a lower block at A - 4", &[(33, 8)], 65_536, BROKEN),
        // o + c = 2.
        ("step 4: an ordinal past n", &[(29, 1)], 65_536, BROKEN),
    ];
    hold(&column, &lines);
}

#[test]
fn the_value() {
    // Ids 0 and 1 with 2^63 - 8 and 2^63 - 1: the smallest is the header number 2^64 - 16, F0 and FF
    // eight times and 01, and the divisor 7 stands at 16. Stored are 0 and 1 at width 1.
    let mut column = vec![0x01, 0x02, 0x09, 0x0E, 0x00, 0x01, 0xF0];
    column.extend([0xFF; 8]);
    column.extend([0x01, 0x07, 0x01]);
    column.extend([0x00, 0x00, 0x01, 0x00, 0x00, 0x00, 0x01, 0x00]);
    column.extend([0xFF, 0x7F, 0x00, 0x00, 0xFF, 0xFF, 0x40]);
    let smallest = i64::MAX - 7;
    let lines: [Line; 5] = [
        (
            "step 7: the greatest value",
            &[],
            1,
            found(1, i64::MAX, 0, 1),
        ),
        ("step 7: one more", &[(16, 8)], 1, BROKEN),
        ("step 7: stored 0", &[(16, 8)], 0, found(0, smallest, 0, 2)),
        (
            "ID before any header number",
            &[(0, 0)],
            MAX_ID + 1,
            Err(Refusal::Id),
        ),
        ("the header", &[(0, 0)], MAX_ID, Err(Refusal::Edition)),
    ];
    hold(&column, &lines);
}

#[test]
fn a_dense_block() {
    // Ids 0 to 4095, each value 7, p 9. The header is 01, 80 20 (4096), 09, 8A 42 (L = 4 + 256 + 8192
    // + 6), 00, 00, 0E, 01, 00: 11 bytes. The head is at 11, the rank of stride t at 15 + 2t, 512t up
    // to t = 8, and the words at 271.
    let ids: Vec<u32> = (0..4096).collect();
    let column = same::write_exactly(&ids, &[7; 4096], Edition::Plain, 9);
    assert_eq!(column[11..19], [0, 0, 0xFF, 0x0F, 0, 0, 0x02, 0x00]);
    let lines: [Line; 8] = [
        // Word 9, of a stride that starts at word 8.
        ("step 6: bit set, two words", &[], 600, found(600, 7, 2, 0)),
        ("step 6: a rank above the count", &[(17, 0xFF)], 600, BROKEN),
        (
            "step 6: the rank of another stride",
            &[(17, 0xFF)],
            100,
            found(100, 7, 2, 0),
        ),
        // 600 - 512 = 88 ones below it: rank 4007 (0F A7) makes 4095, and 4008 makes 4096.
        (
            "step 6: the last inner place",
            &[(17, 0x0F), (18, 0xA7)],
            600,
            found(4095, 7, 2, 0),
        ),
        (
            "step 6: an inner place of c",
            &[(17, 0x0F), (18, 0xA8)],
            600,
            BROKEN,
        ),
        (
            "step 6: bit clear, whatever the rank",
            &[(31, 0xFF)],
            4500,
            absent(1, 0),
        ),
        // Word 8, place 8 of the block's words, is at 271 + 64.
        ("step 6: a bit cleared", &[(335, 0xFE)], 512, absent(1, 0)),
        (
            "step 6: one less before it",
            &[(335, 0xFE)],
            600,
            found(599, 7, 2, 0),
        ),
    ];
    hold(&column, &lines);
}
