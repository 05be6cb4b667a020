//! A set on disk (document 02, [14]): beside bytes put down as the document words them, and beside the
//! list itself.

use std::collections::BTreeSet;

use super::*;

/// The document's rules one by one, with no thought of speed.
fn plain_set(ids: &BTreeSet<u32>) -> Vec<u8> {
    let numbers: BTreeSet<u32> = ids.iter().map(|id| id / 65536).collect();
    let mut out = Vec::new();
    put_number(&mut out, numbers.len() as u128);
    for number in numbers {
        let (there, missing): (Vec<u32>, Vec<u32>) =
            (0..65536).partition(|place| ids.contains(&(number * 65536 + place)));
        put_number(&mut out, u128::from(number));
        let list = if there.len() <= 4096 {
            Some((0, &there))
        } else if missing.len() < 4096 {
            Some((1, &missing))
        } else {
            None
        };
        if let Some((kind, list)) = list {
            put_number(&mut out, kind);
            put_number(&mut out, list.len() as u128);
            list.iter()
                .for_each(|&place| put_low_first(&mut out, place as usize, 2));
        } else {
            put_number(&mut out, 2);
            put_number(&mut out, 0);
            let mut bitmap = vec![0; 8192];
            there
                .iter()
                .for_each(|&place| bitmap[place as usize / 8] |= 1 << (place % 8));
            out.extend(bitmap);
        }
    }
    out
}

#[test]
fn as_the_document_words_it() {
    for count in [
        0, 1, 4095, 4096, 4097, 30_000, 61_439, 61_440, 61_441, 65_534, 65_535, 65_536,
    ] {
        for step in [1, 3] {
            let ids: BTreeSet<u32> = (0..count)
                .map(|i| (i * step) % 65536 + 65536 * 7)
                .chain([0, MAX_ID])
                .collect();
            let list: Vec<u32> = ids.iter().copied().collect();
            let set = plain_set(&ids);
            let mut out = vec![0; set.len()];
            assert_eq!(set_write(&list, &mut out), Ok(set.len() as u64));
            assert!(out == set, "{count} ids, step {step}");
            let short = set_write(&list, &mut out[1..]);
            assert_eq!(short, Err(Refusal::room(set.len() as u64)));
            assert_eq!(set_check(&set), Ok(ids.len() as u64));
            for id in [0, 1, 65536 * 7, 65536 * 7 + 4096, 65536 * 8 - 1, MAX_ID] {
                let ordinal = ids.range(..id).count() as u64;
                let expected = ids.contains(&id).then_some(ordinal);
                assert_eq!(set_find(&set, id), Ok(expected), "{count} ids, id {id}");
            }
            assert_eq!(set_find(&set, MAX_ID + 1), Err(Refusal::ID));
        }
    }
}

#[test]
fn the_first_fault_decides() {
    for (bytes, refusal) in [
        (&[][..], Refusal::short(0)),
        (&[0x80, 0], Refusal::bad_number(1)),
        // 32767 blocks; a block 32766; kind 3; no ids; 4097 ids: each at once.
        (&[0xFF, 0xFF, 1], Refusal::DAMAGED),
        (&[1, 0xFE, 0xFF, 1, 0x80, 0], Refusal::DAMAGED),
        (&[1, 0, 3, 0x80, 0], Refusal::DAMAGED),
        (&[1, 0, 0, 0, 0x80], Refusal::DAMAGED),
        (&[1, 0, 0, 0x81, 0x20], Refusal::DAMAGED),
        (&[1, 0, 1, 0x80, 0x20], Refusal::DAMAGED),
        (&[1, 0, 2, 1], Refusal::DAMAGED),
        (&[1, 0, 0x80, 0], Refusal::bad_number(3)),
        // A list out of order comes before the next block's number.
        (&[2, 0, 0, 2, 5, 0, 5, 0, 0x80, 0], Refusal::DAMAGED),
        (&[2, 0, 0, 2, 5, 0, 6, 0, 0x80, 0], Refusal::bad_number(9)),
        (&[2, 0, 0, 2, 5, 0, 6, 0], Refusal::short(8)),
        // Cut off; left over; block numbers that do not rise.
        (&[1, 0, 0, 2, 5, 0, 6], Refusal::DAMAGED),
        (&[0, 0], Refusal::DAMAGED),
        (&[2, 1, 0, 1, 0, 0, 1, 0, 1, 0, 0], Refusal::DAMAGED),
    ] {
        assert_eq!(set_check(bytes), Err(refusal), "{bytes:?}");
        assert_eq!(set_find(bytes, 5), Err(refusal), "{bytes:?}");
    }
}
