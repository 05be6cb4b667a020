//! Pairs from an id on, into lists of any lengths: on columns the pair list's, on other bytes what the single calls
//! for the next candidate give one after the other. Every place of both lists is compared.

use crate::common::damage::{asked, large_columns, small_columns, Tally};
use crate::common::parts::Parts;
use crate::common::same::{self, Read, HIGH};
use crate::common::{
    block_ids, bytes, changes, few_ids, ids_of, values_of_width, Random, BLOCK_COUNTS, EDITIONS,
    POWERS, THREE_PAIRS,
};
use signalfern::{Column, Cursor, Edition, Header, Refusal, MAX_ID};

const BROKEN: Read = Err(Refusal::Broken);

/// A list and its column.
struct Listed {
    pairs: Vec<(u32, i64)>,
    bytes: Vec<u8>,
}

impl Listed {
    fn new(ids: &[u32], values: &[i64], edition: Edition, power: u32) -> Self {
        Self {
            pairs: ids.iter().copied().zip(values.iter().copied()).collect(),
            bytes: signalfern::write_to_vec(ids, values, edition, power).unwrap(),
        }
    }

    /// The list's own pairs from an id on, so many at most.
    fn expected(&self, id: u32, room: usize) -> Read {
        let rest = &self.pairs[self.pairs.partition_point(|pair| pair.0 < id)..];
        let count = room.min(rest.len());
        Ok((rest[..count].to_vec(), rest.len() <= room))
    }

    /// Reads from each id, with lists of several lengths, one of them longer.
    #[track_caller]
    fn ask(&self, random: &mut Random, starts: &[u32]) {
        let header = Column::open(&self.bytes).unwrap().header();
        for &id in starts {
            let room = random.pick(&[0, 1, 2, 63, 64, 65, 700]);
            let more = random.pick(&[0, 1, 5]);
            let lens = random.pick(&[(room, room + more), (room + more, room)]);
            let expected = self.expected(id, room);
            let read = same::read_from(&self.bytes, id, lens);
            assert!(read == expected, "{} places from {id}", room);
            assert_eq!(
                same::read_from_in(header, &self.bytes, id, lens),
                expected,
                "{room} places from {id}"
            );
        }
    }

    /// Reads the whole by calls one after the other, each with room for so many pairs.
    #[track_caller]
    fn one_after_the_other(&self, room: usize) {
        let column = Column::open(&self.bytes).unwrap();
        let (mut ids, mut values) = (vec![0; room], vec![0; room]);
        let (mut all, mut from) = (Vec::new(), 0);
        loop {
            let read = column.read_from(from, &mut ids, &mut values).unwrap();
            let pairs = ids.iter().copied().zip(values.iter().copied());
            all.extend(pairs.take(read.count));
            if read.ended {
                break;
            }
            assert_eq!(read.count, room);
            from = ids[room - 1] + 1;
        }
        assert!(all == self.pairs, "by {room}");
    }
}

/// Ids at the borders of words, strides and blocks, near these blocks.
fn borders(random: &mut Random, numbers: &[u32]) -> Vec<u32> {
    let mut starts = vec![0, 1, MAX_ID - 1, MAX_ID];
    for &number in numbers {
        let base = number << 16;
        let places = [0, 1, 63, 64, 65, 65_471, 65_472, 65_473, 65_534, 65_535];
        starts.extend(places.map(|place| base | place));
        for power in POWERS {
            let border = base | ((random.below(65_536) as u32 >> power) << power);
            starts.extend([border, border | 63, border.saturating_sub(1)]);
        }
        starts.push(base.saturating_sub(1));
        starts.extend((0..5).map(|_| base | random.below(65_536) as u32));
    }
    starts
}

#[test]
fn every_block_kind_in_every_edition_at_every_power() {
    let mut random = Random::new(140);
    for count in BLOCK_COUNTS {
        for power in POWERS {
            for edition in EDITIONS {
                let number = random.pick(&[0, 1, 40]);
                let ids = block_ids(&mut random, number, count);
                let width = random.below(65) as u32;
                let values = values_of_width(&mut random, count, width);
                let listed = Listed::new(&ids, &values, edition, power);
                let starts = borders(&mut random, &[number]);
                listed.ask(&mut random, &starts);
            }
        }
    }
}

#[test]
fn over_blocks_and_runs() {
    let mut random = Random::new(141);
    for blocks in [
        &[(0, 3), (1, 1)][..],
        &[(1, 1)],
        &[(2, 5), (3, 65_536), (9, 4096)],
        &[(0, 65_536), (1, 65_536)],
        &[(5, 4095), (6, 4096), (100, 2)],
        &[(0, 1), (32_765, 1)],
        &[(32_764, 5000), (32_765, 65_535)],
        &[(700, 10), (1000, 65_536), (1001, 20_000)],
    ] {
        let numbers: Vec<u32> = blocks.iter().map(|block| block.0).collect();
        for edition in EDITIONS {
            let ids = ids_of(&mut random, blocks);
            let values = values_of_width(&mut random, ids.len(), 9);
            let power = random.pick(&POWERS);
            let listed = Listed::new(&ids, &values, edition, power);
            let starts = borders(&mut random, &numbers);
            listed.ask(&mut random, &starts);
            for room in [1, 2, 63, 64, 100, 16_385, 65_536, 1 << 18] {
                // One by one, a block is entered again for each pair.
                if room > 1 || ids.len() < 20_000 {
                    listed.one_after_the_other(room);
                }
            }
        }
    }
}

#[test]
fn every_width() {
    let mut random = Random::new(142);
    for width in 0..=64 {
        // Any count modulo 8 leaves its own spare bits, and the last numbers reach the end.
        for count in (0..20).chain([63, 64, 65, 200]) {
            let ids: Vec<u32> = (0..count as u32).map(|i| i * 3).collect();
            let values = values_of_width(&mut random, count, width);
            let starts = [0, 1, 9, random.below(3 * count + 2) as u32];
            for edition in EDITIONS {
                let listed = Listed::new(&ids, &values, edition, 9);
                listed.ask(&mut random, &starts);
                listed.one_after_the_other(1 + random.below(70));
            }
        }
    }
}

#[test]
fn many_short_lists() {
    let mut random = Random::new(143);
    for _ in 0..300 {
        let ids = few_ids(&mut random, 12);
        let width = random.below(65) as u32;
        let values = values_of_width(&mut random, ids.len(), width);
        let edition = random.pick(&EDITIONS);
        let listed = Listed::new(&ids, &values, edition, random.pick(&POWERS));
        let near = ids.iter().flat_map(|id| [*id, id + 1, id ^ 65_536]);
        let starts: Vec<u32> = near.collect();
        listed.ask(&mut random, &starts);
        listed.one_after_the_other(1 + random.below(50));
    }
}

/// What is refused, and that a refusal after the first pair is none: the call that goes on is refused.
#[test]
fn refused_where_the_first_pair_is() {
    let read = |bytes: &[u8], id, room| same::read_from(bytes, id, (room, room + 1));
    let pairs = |pairs: &[(u32, i64)], ended| Ok((pairs.to_vec(), ended));
    // Ids 0 to 4095, each value 7, p 9: the rank of stride 1 stands at byte 17. FF00 is past the block.
    let ids: Vec<u32> = (0..4096).collect();
    let mut dense = same::write_exactly(&ids, &[7; 4096], Edition::Plain, 9);
    dense[17] = 0xFF;
    assert_eq!(read(&dense, 510, 9), pairs(&[(510, 7), (511, 7)], false));
    assert_eq!(read(&dense, 510, 2), pairs(&[(510, 7), (511, 7)], false));
    assert_eq!(read(&dense, 510, 1), pairs(&[(510, 7)], false));
    for room in [0, 1, 9] {
        assert_eq!(read(&dense, 512, room), BROKEN);
    }
    assert_eq!(read(&dense, 1024, 1), pairs(&[(1024, 7)], false));
    assert_eq!(read(&dense, 4096, 0), pairs(&[], true));
    // Ids 0 and 9 with 2^63 - 8 and 2^63 - 1: of divisor 8, at byte 16, the second does not fit.
    let values = [i64::MAX - 7, i64::MAX];
    let mut great = same::write_exactly(&[0, 9], &values, Edition::Plain, 9);
    great[16] = 8;
    assert_eq!(read(&great, 0, 9), pairs(&[(0, i64::MAX - 7)], false));
    assert_eq!(read(&great, 1, 0), BROKEN);
    assert_eq!(read(&great, 10, 9), pairs(&[], true));
    // Places 9, 2, 7: after the first one at or above there is none.
    let mut unsorted = THREE_PAIRS;
    unsorted[14] = 9;
    assert_eq!(read(&unsorted, 0, 9), pairs(&[(9, 150)], true));
    // Places 7, 7, 7.
    let mut again = THREE_PAIRS;
    (again[14], again[16]) = (7, 7);
    assert_eq!(read(&again, 0, 9), pairs(&[(7, 150)], true));
    // Id 65536 with -1: the entry of block 2, at byte 37, leads to block 1, and none above is answered.
    let mut lower = bytes("01 01 00 24 03 00 01 01 00 01 00 00 00 00 00 FF 7F 00 00 FF FF");
    lower.extend([0; 16]);
    lower.extend(bytes("01 00 00 00 00 00 00 00"));
    assert_eq!(read(&lower, 0, 9), pairs(&[(65_536, -1)], false));
    assert_eq!(read(&lower, 65_537, 9), BROKEN);
}

#[test]
fn what_is_refused_in_which_order() {
    let column = THREE_PAIRS;
    let mut wild = column;
    wild[12] = 6;
    let cases: [(&[u8], u32, Refusal); 8] = [
        (&column, MAX_ID + 1, Refusal::Id),
        (&[], u32::MAX, Refusal::Id),
        (&[], 6, Refusal::Short { bytes: 0 }),
        (&[1, 0x80, 0], 9, Refusal::Number { place: 2 }),
        (&[5], 9, Refusal::Edition),
        (&[1, 3, 6, 16, 0, 2, 0, 1, 1], 9, Refusal::Header),
        (&column[..26], 9, Refusal::Length),
        (&wild, 9, Refusal::Broken),
    ];
    for (bytes, id, refusal) in cases {
        for lens in [(0, 0), (0, 3), (3, 0), (3, 5)] {
            assert_eq!(same::read_from(bytes, id, lens), Err(refusal));
        }
    }
    // From an opened column, or any numbers: the id, the rules, the length, the steps.
    let opened = Column::open(&column).unwrap().header();
    let from = |header: Header, bytes: &[u8], id| same::read_from_in(header, bytes, id, (2, 3));
    assert_eq!(
        from(opened, &column, 1),
        Ok((vec![(2, 140), (7, 135)], true))
    );
    assert_eq!(from(opened, &column[1..], 1), Err(Refusal::Length));
    assert_eq!(from(opened, &wild, 1), BROKEN);
    let mut other = opened;
    other.power = 6;
    assert_eq!(from(other, &column[1..], 1), Err(Refusal::Header));
    assert_eq!(from(other, &column[1..], MAX_ID + 1), Err(Refusal::Id));
    for edition in [0, 5, u64::MAX] {
        other.edition = edition;
        assert_eq!(from(other, &column, 1), Err(Refusal::Header));
    }
    assert_eq!(from(Header::default(), &[], 1), Err(Refusal::Header));
}

/// The pairs of the calls for the next candidate, one after the other, up to a refusal or none.
fn by_next(bytes: &[u8], id: u32, room: usize) -> Read {
    let column = Column::open(bytes)?;
    let next = |id: u32| match id {
        0..=MAX_ID => column.next(&mut Cursor::new(), id),
        _ => Ok(None),
    };
    let mut pairs = Vec::new();
    let mut coming = next(id);
    coming?;
    while let (Ok(Some(pair)), true) = (coming, pairs.len() < room) {
        pairs.push((pair.id, pair.value));
        coming = next(pair.id + 1);
    }
    Ok((pairs, coming == Ok(None)))
}

#[test]
fn on_changed_ids_as_the_single_calls() {
    let mut random = Random::new(144);
    let mut told = [0; 4];
    for round in 0..400 {
        // A few blocks with few entries; or, in each fifth round, the last blocks, with all entries.
        let first = if round % 5 == 0 { 32_763 } else { 0 };
        let counts = [1, 3, 40, 4095, 4500, 65_536];
        let mut blocks = vec![(first + random.below(2) as u32, random.pick(&counts))];
        if random.one_in(2) {
            blocks.push((first + 2, random.pick(&counts)));
        }
        let ids = ids_of(&mut random, &blocks);
        let values = values_of_width(&mut random, ids.len(), 5);
        let (edition, power) = (EDITIONS[round % 4], random.pick(&POWERS));
        let column = signalfern::write_to_vec(&ids, &values, edition, power).unwrap();
        let sound = Parts::of(&column);
        for _ in 0..6 {
            let bytes = changes::changed(&mut random, &sound);
            let near = random.pick(&ids).saturating_sub(random.below(9) as u32);
            let high = HIGH + random.below((MAX_ID - HIGH) as usize) as u32;
            let room = random.pick(&[0, 1, 3, 70, 300]);
            for id in [0, near, high] {
                let read = same::read_from(&bytes, id, (room + random.below(3), room));
                assert_eq!(read, by_next(&bytes, id, room), "{room} places from {id}");
                told[match read {
                    Ok((_, true)) => 0,
                    Ok((pairs, false)) if pairs.len() == room => 1,
                    Ok(_) => 2,
                    Err(refusal) => {
                        assert_eq!(refusal, Refusal::Broken);
                        3
                    }
                }] += 1;
            }
        }
    }
    assert!(told.iter().all(|&count| count > 100), "{told:?}");
}

#[test]
fn on_changed_bytes_and_wild_headers() {
    let mut random = Random::new(145);
    let mut tally = Tally::default();
    let mut columns = small_columns(&mut random);
    columns.extend(large_columns(&mut random));
    for column in &columns {
        let (sound, asked) = (same::open(column).unwrap().header(), asked(column));
        for round in 0..60 {
            let mut bytes = column.clone();
            let len = bytes.len();
            // The head and the first blocks; or anywhere, and at the end.
            let at = match round % 3 {
                0 => random.below(len),
                1 => len - 1 - random.below(len.min(40)),
                _ => random.below(len.min(400)),
            };
            bytes[at] ^= 1 << random.below(8);
            let id = random.pick(&asked);
            let room = random.pick(&[0, 1, 20, 130]);
            let lens = random.pick(&[(room, room), (room + 2, room), (room, room + 1)]);
            let read = same::read_from(&bytes, id, lens);
            tally.count(read.err());
            let header = changes::wild(&mut random, sound, len as u64);
            tally.count(same::read_from_in(header, &bytes, id, lens).err());
        }
    }
    tally.has(&[0, 8, 9, 10, 11, 14, 15]);
}
