//! Where a header broke, document 02, [4]: SHORT with the byte count, NUMBER with the place of the
//! byte that decided it. Each of the nine numbers is cut, padded and made too great, and every call
//! tells the same as the reference.

use crate::common::damage::Tally;
use crate::common::{same, Random, THREE_PAIRS};
use signalfern::{Refusal, MAX_ID};

/// Where the header numbers of three pairs start, edition to V, and the id section.
const STARTS: [usize; 10] = [0, 1, 2, 3, 4, 5, 6, 8, 9, 10];

/// Groups that another follows.
const GROUPS: [u8; 10] = [0x80, 0xFF, 0x81, 0x80, 0x80, 0xC0, 0xFF, 0x80, 0x92, 0x80];

/// The column with other bytes in place of the header number with this index.
fn with(index: usize, number: &[u8]) -> Vec<u8> {
    [
        &THREE_PAIRS[..STARTS[index]],
        number,
        &THREE_PAIRS[STARTS[index + 1]..],
    ]
    .concat()
}

/// Every call that reads a header refuses so; a look-up looks at the id first.
#[track_caller]
fn refused(bytes: &[u8], refusal: Refusal) {
    assert_eq!(same::check(bytes), Err(refusal), "{bytes:02X?}");
    assert_eq!(same::read(bytes, 3, 2).unwrap_err(), refusal);
    assert_eq!(same::open(bytes).unwrap_err(), refusal);
    assert_eq!(same::walk(bytes).unwrap_err(), refusal);
    assert_eq!(same::look_up(bytes, 2), Err(refusal));
    assert_eq!(same::look_up(bytes, MAX_ID + 1), Err(Refusal::Id));
}

#[test]
fn cut_within_each_number() {
    for start in &STARTS[..9] {
        for len in 0..10 {
            let bytes = [&THREE_PAIRS[..*start], &GROUPS[..len]].concat();
            refused(&bytes, Refusal::Short { bytes: start + len });
        }
    }
    // The sound header at each length: only all of it is enough.
    for len in 0..10 {
        refused(&THREE_PAIRS[..len], Refusal::Short { bytes: len });
    }
    refused(&THREE_PAIRS[..10], Refusal::Length);
}

#[test]
fn a_padded_zero_in_each_number() {
    for (index, start) in STARTS[..9].iter().enumerate() {
        for len in 1..10 {
            let number = [&GROUPS[..len], &[0]].concat();
            let place = start + len;
            refused(&with(index, &number), Refusal::Number { place });
            // The zero decides, be it the last byte that there is.
            let ends = &with(index, &number)[..=place];
            refused(ends, Refusal::Number { place });
        }
    }
}

#[test]
fn a_tenth_byte_in_each_number() {
    for (index, start) in STARTS[..9].iter().enumerate() {
        let place = start + 9;
        for tenth in (0..=255).filter(|&byte| byte != 1) {
            let number = [&GROUPS[..9], &[tenth]].concat();
            refused(&with(index, &number), Refusal::Number { place });
            refused(&with(index, &number)[..=place], Refusal::Number { place });
        }
        // 1 makes a number: what it says is another matter.
        let number = [&GROUPS[..9], &[1]].concat();
        let number = same::check(&with(index, &number)).map_err(Refusal::number);
        assert!(!matches!(number, Err(7 | 8)), "{number:?}");
    }
}

#[test]
fn eleven_bytes_in_each_number() {
    for (index, start) in STARTS[..9].iter().enumerate() {
        let place = start + 9;
        for eleventh in [0, 1, 2, 0x7F, 0x80, 0xFF] {
            let number = [&GROUPS[..], &[eleventh]].concat();
            refused(&with(index, &number), Refusal::Number { place });
        }
    }
}

#[test]
fn the_first_bad_number_decides() {
    // Of two bad numbers the first, whichever way each is bad; and a bad one before a rule or a
    // length, but after an edition that is none.
    for (bytes, refusal) in [
        (
            &[0x01, 0x83, 0x00, 0x89, 0x00][..],
            Refusal::Number { place: 2 },
        ),
        (
            &[0x01, 0x03, 0x89, 0x00, 0x80],
            Refusal::Number { place: 3 },
        ),
        (&[0x01, 0x03, 0x06, 0x80], Refusal::Short { bytes: 4 }),
        (&[0x81, 0x00, 0x80], Refusal::Number { place: 1 }),
        (&[0x02, 0x80, 0x00], Refusal::Number { place: 2 }),
        (&[0x03, 0x80, 0x00], Refusal::Number { place: 2 }),
        (&[0x04, 0x80, 0x00], Refusal::Number { place: 2 }),
        (&[0x05, 0x80, 0x00], Refusal::Edition),
        (&[0x00, 0x80], Refusal::Edition),
    ] {
        refused(bytes, refusal);
    }
}

/// Any bytes of the kinds that matter. Those before the place are whole numbers, and groups of the
/// one that it belongs to; so cut before the place they are SHORT.
#[test]
fn nothing_before_the_place_decides() {
    let mut random = Random::new(60);
    let mut tally = Tally::default();
    for _ in 0..40_000 {
        let mut bytes = vec![random.pick(&[1, 2, 3])];
        for _ in 0..random.below(40) {
            let any = random.next() as u8;
            bytes.push(random.pick(&[0, 1, 2, 0x80, 0x80, 0x81, 0xFF, 0xFF, any]));
        }
        tally.try_all(&bytes, &[0]);
        match same::check(&bytes) {
            Err(Refusal::Number { place }) => {
                for len in 0..=place {
                    assert_eq!(
                        same::check(&bytes[..len]),
                        Err(Refusal::Short { bytes: len })
                    );
                }
                let decided = same::check(&bytes[..=place]);
                assert_eq!(decided, Err(Refusal::Number { place }));
                // With 1 there, the number is one.
                bytes[place] = 1;
                let after = same::check(&bytes);
                assert!(!matches!(after, Err(Refusal::Number { place: p }) if p <= place));
            }
            Err(Refusal::Short { bytes: count }) => assert_eq!(count, bytes.len()),
            _ => {}
        }
    }
    assert!(tally.0[7] > 5000 && tally.0[8] > 5000, "{:?}", tally.0);
}
