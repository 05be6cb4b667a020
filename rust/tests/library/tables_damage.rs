//! Edition 4 (document 02, [12]): tables with an entry changed, codes past the table, headers that break a rule,
//! and any changes. Every call beside the reference.

use crate::common::damage::{refused_everywhere, Tally};
use crate::common::parts::{self, Parts};
use crate::common::tables::{self, distinct, far_apart, some_of, value, with_codes, ENTRY};
use crate::common::{layers, same, Random};
use signalfern::Refusal;

/// Twenty pairs of five values.
fn sound() -> (Parts, Vec<i64>, Vec<u64>) {
    let values = far_apart(5, 20);
    let parts = tables::parts(&values);
    assert_eq!(same::check(&parts.bytes()), Ok(20));
    let codes = parts.stored();
    (parts, distinct(&values), codes)
}

/// What the check says, with every call tried.
#[track_caller]
fn checked(parts: &Parts) -> Result<u64, Refusal> {
    let bytes = parts.bytes();
    let asked: Vec<u32> = tables::ids(parts.numbers[parts::COUNT] as usize);
    Tally::default().try_all(&bytes, &asked[..asked.len().min(20)]);
    same::check(&bytes)
}

/// Each entry made another: a column where the table still ascends, of other values; and none otherwise. A
/// look-up goes by the entry all the same.
#[test]
fn other_entries() {
    let (sound, table, codes) = sound();
    for at in 0..5_usize {
        let around = [at.checked_sub(1), Some(at + 1)].map(|i| i.and_then(|i| table.get(i)));
        let mut others = vec![table[at].wrapping_add(1), table[at].wrapping_sub(1), 0, -1];
        others.extend([i64::MIN, i64::MAX]);
        others.extend(around.into_iter().flatten());
        for other in others.into_iter().filter(|&other| other != table[at]) {
            let mut changed = table.clone();
            changed[at] = other;
            let parts = with_codes(sound.clone(), &changed, &codes);
            let ascends = changed.windows(2).all(|two| two[0] < two[1]);
            let expected = if ascends {
                Ok(20)
            } else {
                Err(Refusal::Damaged)
            };
            assert_eq!(checked(&parts), expected, "{changed:?}");
            for (ordinal, &code) in codes.iter().enumerate() {
                assert_eq!(value(&parts.bytes(), ordinal), Ok(changed[code as usize]));
            }
        }
    }
    // Turned round, and two changed for one another.
    for (a, b) in [(0, 1), (3, 4), (0, 4), (2, 3)] {
        let mut changed = table.clone();
        changed.swap(a, b);
        let parts = with_codes(sound.clone(), &changed, &codes);
        assert_eq!(checked(&parts), Err(Refusal::Damaged));
    }
}

/// Each code made each other: past the table it is BROKEN, and no column; otherwise a column of other values, as
/// long as each entry is used.
#[test]
fn other_codes() {
    let (sound, table, codes) = sound();
    for at in 0..20 {
        for code in 0..8 {
            let mut changed = codes.clone();
            changed[at] = code;
            let parts = with_codes(sound.clone(), &table, &changed);
            let told = value(&parts.bytes(), at);
            let expected = if code < 5 {
                Ok(20)
            } else {
                Err(Refusal::Damaged)
            };
            assert_eq!(checked(&parts), expected, "{at} {code}");
            let entry = table.get(code as usize).copied();
            assert_eq!(told, entry.ok_or(Refusal::Broken), "{at} {code}");
        }
    }
    // No pair has the entry that is left out.
    for left_out in 0..5 {
        let other = u64::from(left_out == 0);
        let changed: Vec<u64> = (codes.iter())
            .map(|&code| if code == left_out { other } else { code })
            .collect();
        let parts = with_codes(sound.clone(), &table, &changed);
        assert_eq!(checked(&parts), Err(Refusal::Damaged), "{left_out}");
    }
    // All of one code, and codes that are all past the table.
    for code in [0, 4, 5, 7] {
        let parts = with_codes(sound.clone(), &table, &[code; 20]);
        assert_eq!(checked(&parts), Err(Refusal::Damaged), "{code}");
    }
    // The spare bits: 60 are used of 64.
    for bits in 1..16 {
        let mut parts = sound.clone();
        *parts.values.last_mut().unwrap() |= bits;
        assert_eq!(checked(&parts), Err(Refusal::Damaged), "{bits}");
        assert_eq!(value(&parts.bytes(), 19), value(&sound.bytes(), 19));
    }
}

/// T of 2 to 256, w the least for T, smallest 0, and V of both: everything else is HEADER, in every call.
#[test]
fn headers_that_break_a_rule() {
    for entries in [2, 3, 5, 16, 255, 256] {
        let sound = tables::parts(&far_apart(entries, 1000));
        let own = sound.numbers;
        let broken = |field: usize, other: u64| {
            let mut changed = sound.clone();
            changed.numbers[field] = other;
            refused_everywhere(&changed.bytes(), Refusal::Header);
        };
        for width in (0..=66)
            .chain([u64::MAX])
            .filter(|&w| w != own[parts::WIDTH])
        {
            broken(parts::WIDTH, width);
        }
        for least in [1, 2, 270, u64::MAX] {
            broken(parts::LEAST, least);
        }
        for count in [
            0,
            1,
            own[parts::STEP] + 1,
            own[parts::STEP] - 1,
            257,
            1 << 61,
            u64::MAX,
        ] {
            broken(parts::STEP, count);
        }
        for bytes in [
            0,
            own[parts::VALUE_BYTES] - 1,
            own[parts::VALUE_BYTES] + 1,
            u64::MAX,
        ] {
            broken(parts::VALUE_BYTES, bytes);
        }
        // One pair more or less has as many code bytes here, or not; then it is the count that is wrong.
        let mut longer = sound.clone();
        longer.values.push(0);
        refused_everywhere(&longer.bytes(), Refusal::Length);
        refused_everywhere(&longer.bytes_with_lengths(), Refusal::Header);
    }
}

/// Tables of 1 and of 257 entries, with the width and the bytes that they would have.
#[test]
fn tables_too_small_or_too_great() {
    for (entries, header) in [
        (0, true),
        (1, true),
        (2, false),
        (256, false),
        (257, true),
        (300, true),
    ] {
        let table = distinct(&far_apart(entries.max(1), entries));
        let plain = tables::parts(&far_apart(2, 1000));
        let codes: Vec<u64> = (0..1000).map(|i| i % entries.max(1) as u64).collect();
        let parts = match entries {
            0 => {
                let mut none = with_codes(plain, &[0], &codes);
                none.values.clear();
                none.numbers[parts::STEP] = 0;
                none
            }
            _ => with_codes(plain, &table, &codes),
        };
        let bytes = parts.bytes_with_lengths();
        match header {
            true => refused_everywhere(&bytes, Refusal::Header),
            false => assert_eq!(same::check(&bytes), Ok(1000)),
        }
    }
    // No pairs: no table has an entry that is used.
    let empty =
        Parts::of(&signalfern::write_to_vec(&[], &[], signalfern::Edition::Plain, 9).unwrap());
    for table in [&[5, 6][..], &[i64::MIN, 0, i64::MAX]] {
        let parts = with_codes(empty.clone(), table, &[]);
        assert_eq!(checked(&parts), Err(Refusal::Damaged));
    }
}

/// Sound in all but that the table saves nothing.
#[test]
fn not_shorter_than_edition_1() {
    for values in [
        &[5, 6, 5, 6, 3000][..],
        &[1 << 60, 1 << 61],
        &[0, 1],
        &[7, 7, 8, 9],
        &far_apart(20, 20),
    ] {
        let parts = tables::parts(values);
        assert_eq!(checked(&parts), Err(Refusal::Damaged), "{values:?}");
        for (ordinal, &told) in values.iter().enumerate() {
            assert_eq!(value(&parts.bytes(), ordinal), Ok(told));
        }
    }
}

/// Changed bytes in the table, in the codes and in the header, of columns with few entries and many: every call.
#[test]
fn changed_columns() {
    let mut random = Random::new(97);
    let mut tally = Tally::default();
    for round in 0..150 {
        let entries = random.pick(&[2, 3, 4, 5, 7, 16, 100, 256]);
        let count = entries + random.below(600);
        let mut values = far_apart(entries, entries);
        values.extend(some_of(&mut random, &values, count - entries));
        let sound = tables::parts(&values);
        let ids = tables::ids(count);
        let mut asked = vec![0, 3, 4, ids[count - 1]];
        asked.extend((0..6).map(|_| random.pick(&ids)));
        for _ in 0..12 {
            let mut changed = sound.clone();
            for _ in 0..1 + random.below(2) {
                let table = ENTRY * entries;
                match random.below(4) {
                    0 if round % 2 == 0 => {
                        let field =
                            random.pick(&[parts::WIDTH, parts::LEAST, parts::STEP, parts::COUNT]);
                        let near = changed.numbers[field].wrapping_add(random.pick(&[1, u64::MAX]));
                        changed.numbers[field] = random.pick(&[near, 0, 1, 2, 256, 257]);
                    }
                    1 => changed.values[random.below(table)] ^= 1 << random.below(8),
                    _ => {
                        let codes = changed.values.len() - table;
                        changed.values[table + random.below(codes)] ^= 1 << random.below(8);
                    }
                }
            }
            let bytes = changed.bytes();
            tally.try_all(&bytes, &asked);
            let over = sound.bytes();
            for &id in asked.iter().take(4) {
                tally.count(same::next(&bytes, id.max(7)).err());
                for (machine, correction) in [(&bytes, &over), (&over, &bytes), (&bytes, &bytes)] {
                    let look = layers::look_up(machine, correction, id);
                    tally.count(look.err().map(|(_, refusal)| refusal));
                }
            }
        }
    }
    tally.has(&[0, 9, 10, 13, 15]);
}
