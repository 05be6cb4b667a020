//! A correction on top of a machine column (document 02, [10]): as the two lists have it.

use super::*;

/// The words of a column's own list and rank power: "The walk over all blocks, and the words".
fn plain_words(pairs: &BTreeMap<u32, i64>, power: u32, id: u32) -> u64 {
    let (base, r) = (id & !0xFFFF, u64::from(id % 65_536));
    let count = pairs.range(base..=base | 0xFFFF).count();
    match count {
        4096..=65_535 if pairs.contains_key(&id) => {
            let stride = if power == 0 { 1024 } else { 1 << (power - 6) };
            r / 64 % stride + 1
        }
        4096..=65_535 => 1,
        _ => 0,
    }
}

/// What the two lists say: the correction's pair wins, with the ordinal in its own column.
fn plain_answer(
    (machine, p): (&BTreeMap<u32, i64>, u32),
    (correction, q): (&BTreeMap<u32, i64>, u32),
    id: u32,
) -> LayeredAnswer {
    let correction_words = plain_words(correction, q, id);
    let found = |layer, pairs: &BTreeMap<u32, i64>, machine_words| LayeredAnswer::Found {
        layer,
        ordinal: pairs.range(..id).count() as u64,
        value: pairs[&id],
        machine_words,
        correction_words,
    };
    if correction.contains_key(&id) {
        return found(Layer::Correction, correction, 0);
    }
    let machine_words = plain_words(machine, p, id);
    if machine.contains_key(&id) {
        return found(Layer::Machine, machine, machine_words);
    }
    LayeredAnswer::Absent {
        machine_words,
        correction_words,
    }
}

#[test]
fn as_the_two_lists_have_it() {
    let mut random = Random(7);
    for round in 0..25 {
        let powers = ([0, 7, 9, 15][round % 4], [9, 0, 12][round % 3]);
        let (machine, correction) = (some_pairs(&mut random), some_pairs(&mut random));
        // Each of its own edition.
        let editions = (EDITIONS[round % 4], EDITIONS[round / 4 % 4]);
        let machine_bytes = plain_column(&machine, editions.0, powers.0);
        let correction_bytes = plain_column(&correction, editions.1, powers.1);
        let opened = (open(&machine_bytes), open(&correction_bytes));
        let (Ok(below), Ok(above)) = opened else {
            panic!("written columns open");
        };
        let listed: Vec<u32> = machine.keys().chain(correction.keys()).copied().collect();
        for _ in 0..60 {
            let id = match random.below(2) {
                0 => random.below(220 << 16) as u32,
                _ if listed.is_empty() => 0,
                _ => listed[random.below(listed.len() as u64) as usize],
            };
            let answer = plain_answer((&machine, powers.0), (&correction, powers.1), id);
            let layered = look_up_layered(&machine_bytes, &correction_bytes, id);
            assert_eq!(layered, Ok(answer), "{id}");
            let (m, c) = (
                (&below, &machine_bytes[..]),
                (&above, &correction_bytes[..]),
            );
            assert_eq!(look_up_layered_in(m, c, id), Ok(answer), "{id}");
            let holder = match answer {
                LayeredAnswer::Absent { .. } => &machine_bytes[..0],
                LayeredAnswer::Found { layer, .. } => match layer {
                    Layer::Machine => {
                        &machine_bytes[machine_bytes.len() - below.value_bytes as usize..]
                    }
                    Layer::Correction => {
                        &correction_bytes[correction_bytes.len() - above.value_bytes as usize..]
                    }
                },
            };
            let part = layered_values(&machine_bytes, &correction_bytes, id);
            assert!(core::ptr::eq(part, holder), "{id}");
        }
    }
}

#[test]
fn the_first_that_refuses() {
    let machine = plain_column(&BTreeMap::from([(0, 150), (2, 140), (7, 135)]), 1, 9);
    let correction = plain_column(&BTreeMap::from([(2, -1)]), 2, 0);
    // The machine column's bytes are not looked at, where the correction holds the id.
    let found = look_up_layered(&[], &correction, 2);
    assert!(matches!(found, Ok(LayeredAnswer::Found { value: -1, .. })));
    let short = Refusal::short(0);
    assert_eq!(
        look_up_layered(&[], &correction, 3),
        Err((Layer::Machine, short))
    );
    assert_eq!(
        look_up_layered(&machine, &[], 2),
        Err((Layer::Correction, short))
    );
    let too_great = Err((Layer::Correction, Refusal::ID));
    assert_eq!(look_up_layered(&[], &[], MAX_ID + 1), too_great);
    for (m, c) in [(&machine[..], &[][..]), (&[], &correction)] {
        assert!(core::ptr::eq(layered_values(m, c, 3), &m[..0]));
    }
}
