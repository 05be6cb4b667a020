//! Stored numbers by index (document 02, [5]): at every width of each edition and from every place in a
//! byte, a call has the number of its own bits, whatever stands beside them. The codes of edition 4:
//! `tables`.

use crate::common::parts::{self, Parts};
use crate::common::{same, Random, LUCENE_WIDTHS, SCALED};
use signalfern::{Cursor, Edition};
use signalfern_reference::Answer;

/// Enough that a number starts at each place in a byte that its width leads to, and once more.
const COUNT: usize = 17;

/// The ids 0 to 16, with any stored numbers. The smallest value is -2^63 and the divisor 1, so that
/// every number of 64 bits has a value.
fn column(edition: Edition, width: usize, byte: impl FnMut(usize) -> u8) -> Parts {
    let ids: Vec<u32> = (0..COUNT as u32).collect();
    let written = signalfern::write_to_vec(&ids, &[i64::MIN; COUNT], edition, 9).unwrap();
    let mut parts = Parts::of(&written);
    match edition {
        // The smallest value stands in the directory already.
        Edition::Runs => parts.values[24] = width as u8,
        _ => parts.numbers[parts::WIDTH] = width as u64,
    }
    (parts.values).extend((0..(COUNT * width).div_ceil(8)).map(byte));
    parts
}

/// Each of these editions with each of its widths.
fn widths() -> impl Iterator<Item = (Edition, usize)> {
    SCALED.into_iter().flat_map(|edition| {
        let allowed = move |width: &usize| match edition {
            Edition::Lucene => *width == 0 || LUCENE_WIDTHS.contains(&(*width as u32)),
            _ => true,
        };
        (0..=64).filter(allowed).map(move |width| (edition, width))
    })
}

/// The value of id `i` by a look-up and as the next candidate, each beside the reference.
#[track_caller]
fn value(parts: &Parts, i: usize) -> i64 {
    let bytes = parts.bytes_with_lengths();
    let Ok(Answer::Found { ordinal, value, .. }) = same::look_up(&bytes, i as u32) else {
        panic!("id {i} is listed");
    };
    assert_eq!(ordinal, i as u64);
    let next = same::next_from(&mut Cursor::new(), &bytes, i as u32).unwrap();
    let next = next.map(|next| (next.id, next.ordinal, next.value));
    assert_eq!(next, Some((i as u32, ordinal, value)));
    value
}

#[test]
fn each_number_is_that_of_its_bits() {
    let mut random = Random::new(51);
    for (edition, width) in widths() {
        for parts in [
            column(edition, width, |_| 0xFF),
            column(edition, width, |k| (k * 37 + 5) as u8),
            column(edition, width, |_| random.next() as u8),
        ] {
            for (i, stored) in parts.stored().into_iter().enumerate() {
                let expected = i64::MIN.wrapping_add_unsigned(stored);
                assert_eq!(value(&parts, i), expected, "{edition:?}, {width}, {i}");
            }
        }
    }
}

#[test]
fn bits_beside_it_do_not_matter() {
    let mut random = Random::new(52);
    for (edition, width) in widths() {
        let parts = column(edition, width, |_| random.next() as u8);
        for i in 0..COUNT {
            let own = i * width..(i + 1) * width;
            let mut turned = parts.clone();
            let packed = &mut turned.values[parts.packed_at()..];
            for j in (0..8 * packed.len()).filter(|j| !own.contains(j)) {
                packed[j / 8] ^= match edition {
                    Edition::Lucene => 1 << (j % 8),
                    _ => 128 >> (j % 8),
                };
            }
            let values = (value(&turned, i), value(&parts, i));
            assert_eq!(values.0, values.1, "{edition:?}, {width}, {i}");
        }
    }
}
