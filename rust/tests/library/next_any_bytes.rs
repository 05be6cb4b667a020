//! The next candidate (document 02, [1]) on changed bytes, of which nobody knows the answer beforehand:
//! beside the reference and, in the last blocks that there can be, beside the one that tries each id.

use crate::common::changes::{changed, wild};
use crate::common::damage::{asked, large_columns, small_columns, Tally};
use crate::common::parts::Parts;
use crate::common::same::{next, HIGH};
use crate::common::{ids_of, same, values_of_width, Random, EDITIONS, POWERS};
use signalfern::{Cursor, Refusal, MAX_ID};

#[test]
fn beside_each_id_in_turn() {
    let mut random = Random::new(54);
    let mut told = [0; 3];
    for round in 0..150 {
        // A few blocks with few entries; or, in each fifth round, the last blocks, with all entries.
        let first = if round % 5 == 0 { 32_763 } else { 0 };
        let mut blocks = vec![(
            first + random.below(2) as u32,
            random.pick(&[1, 3, 40, 4500]),
        )];
        if random.one_in(2) {
            blocks.push((first + 2, random.pick(&[1, 2, 30, 4200, 65_536])));
        }
        let ids = ids_of(&mut random, &blocks);
        let values = values_of_width(&mut random, ids.len(), 5);
        let (edition, power) = (random.pick(&EDITIONS), random.pick(&POWERS));
        let column = signalfern::write_to_vec(&ids, &values, edition, power).unwrap();
        let sound = Parts::of(&column);
        for _ in 0..5 {
            let bytes = changed(&mut random, &sound);
            let near = random.pick(&ids).saturating_sub(random.below(9) as u32);
            let high = HIGH + random.below((MAX_ID - HIGH) as usize) as u32;
            for target in [near.max(7), high] {
                told[match next(&bytes, target) {
                    Ok(Some(_)) => 0,
                    Ok(None) => 1,
                    Err(refusal) => {
                        assert_eq!(refusal, Refusal::Broken);
                        2
                    }
                }] += 1;
            }
        }
    }
    assert!(told.iter().all(|&count| count > 100), "{told:?}");
}

#[test]
fn changed_bytes_and_wild_headers() {
    let mut random = Random::new(55);
    let mut tally = Tally::default();
    let mut columns = small_columns(&mut random);
    columns.extend(large_columns(&mut random));
    for column in &columns {
        let (sound, asked) = (same::open(column).unwrap().header(), asked(column));
        for _ in 0..40 {
            let mut bytes = column.clone();
            let at = random.below(bytes.len().min(400));
            bytes[at] ^= 1 << random.below(8);
            let (target, last) = (random.pick(&asked), random.pick(&[0, 0, 70_000]));
            let answer = same::next_from(&mut Cursor::at(last), &bytes, target);
            tally.count(answer.err());
            let header = wild(&mut random, sound, bytes.len() as u64);
            let answer = same::next_in(header, &mut Cursor::at(last), &bytes, target);
            tally.count(answer.err());
        }
    }
    tally.has(&[0, 8, 9, 10, 11, 14, 15, 16]);
}
