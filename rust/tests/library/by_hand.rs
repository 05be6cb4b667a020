//! Columns of three values in editions 3 and 4 (document 02, [11] and [12]), as they are and with a byte or two
//! changed. What each call is to say is worked out from the document by hand, and stands beside the reference too.

use crate::common::same;
use signalfern::Refusal;
use signalfern_reference::Answer;

/// Value or refusal by the look-up of an id that is listed.
#[track_caller]
fn value(bytes: &[u8], id: u32) -> Result<i64, Refusal> {
    match same::look_up(bytes, id)? {
        Answer::Found { value, .. } => Ok(value),
        Answer::Absent { .. } => panic!("id {id} is listed"),
    }
}

/// The bytes with some of them set.
fn set(bytes: &[u8], changes: &[(usize, u8)]) -> Vec<u8> {
    let mut changed = bytes.to_vec();
    for &(place, byte) in changes {
        assert_ne!(changed[place], byte, "no change at {place}");
        changed[place] = byte;
    }
    changed
}

/// Edition 3: ids 0, 1 and 2 with the values 10, 12 and 14. The header is edition 3, n 3, p 9, L 16, J 0, w and
/// smallest 0, g 2, V 26. Then 16 bytes of ids; from byte 25 on smallest 10, greatest 14 and start 0, 8 bytes each;
/// at byte 49 width 2; and stored 0, 1 and 2, bits 000110.
const RUN: [u8; 51] = [
    0x03, 0x03, 0x09, 0x10, 0x00, 0x00, 0x00, 0x02, 0x1A, // header
    0x00, 0x00, 0x02, 0x00, 0x00, 0x00, 0x01, 0x00, 0x02, 0x00, // block 0
    0xFF, 0x7F, 0x00, 0x00, 0xFF, 0xFF, // end block
    0x0A, 0, 0, 0, 0, 0, 0, 0, // byte 25: smallest
    0x0E, 0, 0, 0, 0, 0, 0, 0, // byte 33: greatest
    0, 0, 0, 0, 0, 0, 0, 0,    // byte 41: start
    0x02, // byte 49: width
    0x18,
];
const SMALLEST: usize = 25;
const GREATEST: usize = 33;
const START: usize = 41;
const WIDTH: usize = 49;

/// With changes in its directory: no column, but it opens. What an id's look-up says, and the question for a range.
#[track_caller]
fn directory(
    changes: &[(usize, u8)],
    (id, told): (u32, Result<i64, Refusal>),
    ((low, high), first): ((i64, i64), Result<Option<u64>, Refusal>),
) {
    let bytes = set(&RUN, changes);
    assert_eq!(same::check(&bytes), Err(Refusal::Damaged), "{changes:?}");
    assert_eq!(value(&bytes, id), told, "{changes:?}");
    let found = same::first_between(&bytes, low, high);
    assert_eq!(found, first, "{changes:?}");
}

#[test]
fn a_run_as_it_is() {
    assert_eq!(same::check(&RUN), Ok(3));
    assert_eq!(
        [0, 1, 2].map(|id| value(&RUN, id)),
        [Ok(10), Ok(12), Ok(14)]
    );
    assert_eq!(same::first_between(&RUN, 11, 13), Ok(Some(1)));
}

/// The values are then 11, 13, 15 and 9, 11, 13; or 14 is in a run that says it ends at 13, which is skipped.
#[test]
fn smallest_and_greatest_off_by_one() {
    directory(&[(SMALLEST, 11)], (1, Ok(13)), ((13, 13), Ok(Some(1))));
    directory(&[(SMALLEST, 9)], (1, Ok(11)), ((12, 14), Ok(Some(2))));
    directory(&[(GREATEST, 13)], (2, Ok(14)), ((14, 14), Ok(None)));
    directory(&[(GREATEST, 15)], (2, Ok(14)), ((15, 15), Ok(None)));
}

/// At byte 1 of the runs, and far away, there is no number of a bit or more; one of no bits is anywhere.
#[test]
fn starts() {
    let broken = Err(Refusal::Broken);
    for (place, what) in [(0, "one more"), (5, "2^40"), (7, "2^56")] {
        let bytes = set(&RUN, &[(START + place, 1)]);
        for id in 0..3 {
            assert_eq!(value(&bytes, id), broken, "{what}");
        }
        directory(
            &[(START + place, 1)],
            (0, broken),
            ((10, 10), Err(Refusal::Broken)),
        );
    }
    let none = [(WIDTH, 0), (START + 5, 1)];
    directory(&none, (2, Ok(10)), ((10, 10), Ok(Some(0))));
}

/// At width 3 the numbers are 0 and 6, and the third reaches past the section; at width 1 they are 0, 0 and 0. A
/// width of 65 is told where a value is met: not in a run that is skipped, nor in a range that is none.
#[test]
fn widths() {
    let broken = Err(Refusal::Broken);
    directory(&[(WIDTH, 3)], (1, Ok(22)), ((11, 14), Err(Refusal::Broken)));
    directory(&[(WIDTH, 3)], (2, broken), ((9, 10), Ok(Some(0))));
    directory(&[(WIDTH, 1)], (2, Ok(10)), ((12, 14), Ok(None)));
    let wide = [(WIDTH, 65)];
    directory(&wide, (0, broken), ((10, 10), Err(Refusal::Broken)));
    directory(&wide, (0, broken), ((15, 20), Ok(None)));
    directory(&wide, (0, broken), ((14, 10), Ok(None)));
}

/// What the header may not say; and editions that a reader does not know, which for the question are all but 3.
#[test]
fn headers_of_a_run() {
    for (place, byte, refusal, asked) in [
        (5, 1, Refusal::Header, Refusal::Header),
        (6, 1, Refusal::Header, Refusal::Header),
        (7, 0, Refusal::Header, Refusal::Header),
        // V below the 25 bytes of a run, and of 25 without the packed byte that follows.
        (8, 24, Refusal::Header, Refusal::Header),
        (8, 25, Refusal::Length, Refusal::Length),
        (0, 9, Refusal::Edition, Refusal::Edition),
        // The rules of edition 1: three values at width 0 have no bytes.
        (0, 1, Refusal::Header, Refusal::Edition),
    ] {
        let bytes = set(&RUN, &[(place, byte)]);
        assert_eq!(same::check(&bytes), Err(refusal), "{place} {byte}");
        assert_eq!(value(&bytes, 1), Err(refusal), "{place} {byte}");
        let found = same::first_between(&bytes, 10, 14);
        assert_eq!(found, Err(asked), "{place} {byte}");
    }
}

/// Edition 4: ids 0, 2 and 7 with the smallest value, 0 and the greatest. The header is edition 4, n 3, p 9, L 16,
/// J 0, w 2, smallest 0, T 3, V 25. Then 16 bytes of ids, three entries from byte 25 on, and at byte 49 the codes 0,
/// 1 and 2: bits 000110.
const TABLE: [u8; 50] = [
    0x04, 0x03, 0x09, 0x10, 0x00, 0x02, 0x00, 0x03, 0x19, // header
    0x00, 0x00, 0x02, 0x00, 0x00, 0x00, 0x02, 0x00, 0x07, 0x00, // block 0
    0xFF, 0x7F, 0x00, 0x00, 0xFF, 0xFF, // end block
    0, 0, 0, 0, 0, 0, 0, 0x80, // byte 25: -2^63
    0, 0, 0, 0, 0, 0, 0, 0, // byte 33: 0
    0xFF, 0xFF, 0xFF, 0xFF, 0xFF, 0xFF, 0xFF, 0x7F, // byte 41: 2^63 - 1
    0x18,
];

#[test]
fn a_table_as_it_is() {
    assert_eq!(same::check(&TABLE), Ok(3));
    let told = [0, 2, 7].map(|id| value(&TABLE, id));
    assert_eq!(told, [Ok(i64::MIN), Ok(0), Ok(i64::MAX)]);
}

/// No column, and still what its codes and its entries say.
#[test]
fn codes_and_entries() {
    let broken = Err(Refusal::Broken);
    let (least, most) = (Ok(i64::MIN), Ok(i64::MAX));
    for (place, byte, told) in [
        // Codes 0, 1, 3: one of T. Codes 0, 1, 1: an entry that none has. A spare bit set.
        (49, 0x1C, [least, Ok(0), broken]),
        (49, 0x14, [least, Ok(0), Ok(0)]),
        (49, 0x19, [least, Ok(0), most]),
        // Entries -2^63, -2^63, 2^63 - 1: they do not ascend.
        (40, 0x80, [least, least, most]),
    ] {
        let bytes = set(&TABLE, &[(place, byte)]);
        assert_eq!(same::check(&bytes), Err(Refusal::Damaged), "{place} {byte}");
        let found = [0, 2, 7].map(|id| value(&bytes, id));
        assert_eq!(found, told, "{place} {byte}");
    }
}

/// T 4 with w and V of 3; w 3; smallest 1; V 26. Then headers alone, whose w and V are those of their T for three
/// values: T 1, w 0, V 8; T 2, w 1, V 17; T 256, w 8, V 2051; T 257, w 9, V 2060. One that may be has too few bytes
/// after it.
#[test]
fn headers_of_a_table() {
    let mut all: Vec<(Vec<u8>, Refusal)> = [(7, 4), (5, 3), (6, 1), (8, 26)]
        .map(|change| (set(&TABLE, &[change]), Refusal::Header))
        .into();
    for (of_its_table, refusal) in [
        (&[0x00, 0x00, 0x01, 0x08][..], Refusal::Header),
        (&[0x01, 0x00, 0x02, 0x11], Refusal::Length),
        (&[0x08, 0x00, 0x80, 0x02, 0x83, 0x10], Refusal::Length),
        (&[0x09, 0x00, 0x81, 0x02, 0x8C, 0x10], Refusal::Header),
    ] {
        all.push(([&TABLE[..5], of_its_table].concat(), refusal));
    }
    for (bytes, refusal) in all {
        assert_eq!(same::check(&bytes), Err(refusal), "{bytes:02X?}");
        assert_eq!(value(&bytes, 7), Err(refusal), "{bytes:02X?}");
    }
}
