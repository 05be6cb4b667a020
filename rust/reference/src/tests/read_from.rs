//! Pairs from an id on, the pair with an ordinal, and the range question from an ordinal on: as the
//! list has them, and on damaged columns as each single call does.

use super::next::{damage, high_pairs, HIGH};
use super::*;

/// What stands in the lists before a call.
const UNTOUCHED: (u32, i64) = (77, -77);

/// The reply and the lists, of which the ids have as many places as asked for and the values two
/// more, or the other way round.
fn read(
    bytes: &[u8],
    id: u32,
    room: usize,
    longer: bool,
) -> (Result<Readout, Refusal>, Vec<(u32, i64)>) {
    let mut ids = vec![UNTOUCHED.0; room + 2 * usize::from(longer)];
    let mut values = vec![UNTOUCHED.1; room + 2 * usize::from(!longer)];
    let reply = read_from(bytes, id, &mut ids, &mut values);
    let count = reply.map_or(0, |readout| readout.count);
    assert!(ids[count..].iter().all(|&id| id == UNTOUCHED.0));
    assert!(values[count..].iter().all(|&value| value == UNTOUCHED.1));
    let pairs = ids.into_iter().zip(values).take(count).collect();
    (reply, pairs)
}

#[test]
fn as_the_list_has_them() {
    let mut random = Random(41);
    for round in 0..40 {
        let pairs = some_pairs(&mut random);
        let list: Vec<(u32, i64)> = pairs.iter().map(|(&id, &value)| (id, value)).collect();
        let edition = EDITIONS[round % 4];
        let column = plain_column(&pairs, edition, [0, 7, 9, 15][round / 4 % 4]);
        for _ in 0..20 {
            let id = match random.below(4) {
                0 if !list.is_empty() => list[random.below(list.len() as u64) as usize].0,
                1 => MAX_ID,
                _ => random.below(210 << 16) as u32,
            };
            let room = [0, 1, 3, 100, 70_000][random.below(5) as usize];
            let rest = &list[list.partition_point(|pair| pair.0 < id)..];
            let count = room.min(rest.len());
            let ended = rest.len() <= room;
            let (reply, placed) = read(&column, id, room, random.below(2) == 0);
            assert_eq!(reply, Ok(Readout { count, ended }));
            assert_eq!(placed, rest[..count]);
            let ordinal = random.below(list.len() as u64 + 3);
            let pair =
                list.get(ordinal as usize)
                    .map(|&(id, value)| Candidate { id, ordinal, value });
            assert_eq!(pair_at(&column, ordinal), Ok(pair));
            let (low, high) = (
                random.next() as i64 >> random.below(64),
                random.next() as i64 >> random.below(64),
            );
            let within = |&(_, pair): &(usize, &(u32, i64))| (low..=high).contains(&pair.1);
            let first = list.iter().enumerate().skip(ordinal as usize).find(within);
            let found = first.map(|(ordinal, _)| ordinal as u64);
            let found = if edition == 3 {
                Ok(found)
            } else {
                Err(Refusal::EDITION)
            };
            assert_eq!(first_between_from(&column, ordinal, low, high), found);
        }
        let (mut id, mut all): (u32, Vec<(u32, i64)>) = (0, Vec::new());
        loop {
            let (reply, placed) = read(&column, id, 1 + random.below(40_000) as usize, true);
            all.extend(&placed);
            if reply.expect("a sound column").ended {
                break;
            }
            id = placed.last().expect("room for one").0 + 1;
        }
        assert_eq!(all, list);
    }
    assert_eq!(read(&[], MAX_ID + 1, 3, true).0, Err(Refusal::ID));
}

#[test]
fn on_damaged_columns_as_the_single_calls() {
    let mut random = Random(42);
    let mut told = [0; 4];
    for round in 0..60 {
        let pairs = high_pairs(&mut random);
        if pairs.is_empty() {
            continue;
        }
        let mut column = plain_column(&pairs, EDITIONS[round / 4 % 4], [0, 7, 9, 15][round % 4]);
        for _ in 0..6 {
            damage(&mut random, &mut column);
            let id = (HIGH << 16) + random.below(u64::from(MAX_ID - (HIGH << 16))) as u32;
            let room = random.below(4) as usize;
            let (reply, placed) = read(&column, id, room, random.below(2) == 0);
            // One by one, each id tried.
            let mut target = Some(id);
            let mut single = || match target {
                None => Ok(None),
                Some(id) => {
                    let candidate = next_by_each_id(&mut 0, &column, id)?;
                    target = candidate.and_then(|pair| (pair.id < MAX_ID).then_some(pair.id + 1));
                    Ok(candidate)
                }
            };
            let mut coming = single();
            assert_eq!(reply.err(), coming.err());
            told[usize::from(reply.is_err())] += 1;
            for pair in &placed {
                let candidate = coming
                    .expect("a pair was placed")
                    .expect("a pair was placed");
                assert_eq!((candidate.id, candidate.value), *pair);
                coming = single();
            }
            if let Ok(readout) = reply {
                assert_eq!(readout.ended, coming == Ok(None));
                assert!(readout.ended || readout.count == room || coming.is_err());
            }
            // The pair with an ordinal is the one that the look-up finds, where no entries are out
            // of order.
            let ordinal = random.below(pairs.len() as u64);
            match pair_at(&column, ordinal) {
                Ok(pair) => {
                    let pair = pair.expect("an ordinal below n");
                    assert_eq!(pair.ordinal, ordinal);
                    if let Ok(Answer::Found {
                        ordinal: found,
                        value,
                        ..
                    }) = look_up(&column, pair.id)
                    {
                        if found == ordinal {
                            assert_eq!(value, pair.value);
                            told[2] += 1;
                        }
                    }
                }
                Err(refusal) => {
                    assert_eq!(refusal, Refusal::BROKEN);
                    told[3] += 1;
                }
            }
        }
    }
    assert!(told.iter().all(|&count| count > 20), "{told:?}");
}
