//! A page of ids (document 02, [3]): each place as the single look-up has it.

use super::*;

/// The lists after a call, which held 77 in every place, and what it gave.
type Lists = (Result<u64, Refusal>, Vec<u64>, Vec<i64>, Vec<u8>);

fn paged(bytes: &[u8], ids: &[u32], [o, v, k]: [usize; 3]) -> Lists {
    let (mut ordinals, mut values, mut kinds) = (vec![77; o], vec![77; v], vec![77; k]);
    let given = look_up_page(bytes, ids, &mut ordinals, &mut values, &mut kinds);
    (given, ordinals, values, kinds)
}

/// The same by single look-ups.
fn singly(bytes: &[u8], ids: &[u32], [o, v, k]: [usize; 3]) -> Lists {
    let (mut ordinals, mut values, mut kinds) = (vec![77; o], vec![77; v], vec![77; k]);
    let mut sum = 0;
    for (i, &id) in ids.iter().enumerate() {
        let answer = look_up(bytes, id);
        (ordinals[i], values[i]) = (0, 0);
        kinds[i] = match answer {
            Ok(Answer::Found { ordinal, value, .. }) => {
                (ordinals[i], values[i]) = (ordinal, value);
                0
            }
            Ok(Answer::Absent { .. }) => 1,
            Err(refusal) => refusal.number as u8,
        };
        if let Ok(Answer::Found { words, .. } | Answer::Absent { words, .. }) = answer {
            sum += words;
        }
    }
    (Ok(sum), ordinals, values, kinds)
}

#[test]
fn each_place_as_the_single_look_up() {
    let mut random = Random(8);
    for round in 0..25 {
        let pairs = some_pairs(&mut random);
        let listed: Vec<u32> = pairs.keys().copied().collect();
        let edition = EDITIONS[round / 4 % 4];
        let mut column = plain_column(&pairs, edition, [0, 7, 9, 15][round % 4]);
        for damaged in [false, true] {
            if damaged {
                let at = random.below(column.len().min(600) as u64) as usize;
                column[at] ^= 1 << random.below(8);
            }
            let ids: Vec<u32> = (0..200)
                .map(|_| match random.below(4) {
                    0 => random.below(1 << 32) as u32,
                    1 => random.below(220 << 16) as u32,
                    _ if listed.is_empty() => 0,
                    _ => listed[random.below(listed.len() as u64) as usize],
                })
                .collect();
            for rooms in [[200, 200, 200], [201, 200, 260]] {
                let expected = singly(&column, &ids, rooms);
                assert_eq!(paged(&column, &ids, rooms), expected, "round {round}");
            }
        }
    }
}

#[test]
fn the_words_of_the_request() {
    let column = plain_column(&BTreeMap::from([(0, 150), (2, 140), (7, 135)]), 1, 9);
    let ids = [7, 5, 7, MAX_ID + 1];
    // Found, absent, found again, above the limit; the place after stays.
    let lists = (
        Ok(0),
        vec![2, 0, 2, 0, 77],
        vec![135, 0, 135, 0, 77],
        vec![0, 1, 0, 14, 77],
    );
    assert_eq!(paged(&column, &ids, [5, 5, 5]), lists);
    // No header: SHORT, but above the limit ID comes first.
    let lists = (Ok(0), vec![0; 4], vec![0; 4], vec![7, 7, 7, 14]);
    assert_eq!(paged(&[], &ids, [4, 4, 4]), lists);
    // A list that is one short: nothing is written, whatever the bytes.
    for rooms in [[3, 4, 4], [4, 3, 4], [4, 4, 3]] {
        let [o, v, k] = rooms;
        let lists = (
            Err(Refusal::buffer(4)),
            vec![77; o],
            vec![77; v],
            vec![77; k],
        );
        assert_eq!(paged(&column, &ids, rooms), lists);
        assert_eq!(paged(&[], &ids, rooms), lists);
    }
    assert_eq!(paged(&[], &[], [0, 0, 0]), (Ok(0), vec![], vec![], vec![]));
}
