//! Edition 3 (document 02, [11]): its bytes by hand, the check beside the plain writer, and the question
//! beside a plain scan and beside its own words.

use super::*;

fn written(values: &[i64]) -> Vec<u8> {
    let ids: Vec<u32> = (0..values.len() as u32).collect();
    let mut out = vec![0xAA; 20_000 + 9 * values.len()];
    let len = write(&ids, values, 3, 9, &mut out).expect("room for all values");
    out.truncate(len as usize);
    out
}

/// Where the value section starts.
fn section(column: &[u8]) -> usize {
    let opened = open(column).expect("a column that opens");
    column.len() - opened.value_bytes as usize
}

#[test]
fn columns_by_hand() {
    let mut out = [0xAA; 99];
    // Stored 3, 1, 0 at width 2, from the smallest value 135 and with g 5.
    let len = write(&[0, 2, 7], &[150, 140, 135], 3, 9, &mut out);
    assert_eq!(len, Ok(51));
    let header = [3, 3, 9, 16, 0, 0, 0, 5, 26];
    let ids = [0, 0, 2, 0, 0, 0, 2, 0, 7, 0, 0xFF, 0x7F, 0, 0, 0xFF, 0xFF];
    let directory = [
        [135, 0, 0, 0, 0, 0, 0, 0],
        [150, 0, 0, 0, 0, 0, 0, 0],
        [0; 8],
    ];
    let column = [&header[..], &ids, directory.as_flattened(), &[2, 0xD0]].concat();
    assert_eq!(out[..51], column);
    // No pairs: no directory, and g 1.
    assert_eq!(write(&[], &[], 3, 9, &mut out), Ok(23));
    assert_eq!(out[..9], [3, 0, 9, 14, 1, 0, 0, 1, 0]);
    // -1 is 64 ones, and one value takes no bits.
    assert_eq!(write(&[65_536], &[-1], 3, 0, &mut out), Ok(70));
    assert_eq!(out[..9], [3, 1, 0, 36, 3, 0, 0, 1, 25]);
    assert_eq!(out[45..61], [0xFF; 16]);
    assert_eq!(out[61..70], [0; 9]);
}

/// Runs of 16384, of width 0, 64 and 1, and where each starts.
#[test]
fn runs_side_by_side() {
    let mut values = vec![7; 16_384];
    values.extend((0..16_384).map(|i| if i % 2 == 0 { i64::MIN } else { i64::MAX - i }));
    values.extend([-8, 9, -8]);
    let column = written(&values);
    let start = section(&column);
    let directory = &column[start..start + 75];
    let entries: Vec<(u64, u8)> = (directory.chunks(25))
        .map(|entry| {
            (
                u64::from_le_bytes(*entry[16..].first_chunk().unwrap()),
                entry[24],
            )
        })
        .collect();
    // 17 needs 5 bits, three times.
    assert_eq!(entries, [(0, 0), (0, 64), (131_072, 5)]);
    assert_eq!(column.len(), start + 75 + 131_072 + 2);
    assert_eq!(check(&column), Ok(32_771));
    for (low, high, found) in [
        (7, 7, Some(0)),
        (8, 9, Some(32_769)),
        (i64::MIN, -9, Some(16_384)),
        (i64::MIN, -8, Some(16_384)),
        (-8, 6, Some(32_768)),
        (-7, 6, None),
        (10, i64::MAX, Some(16_385)),
        (i64::MAX, i64::MAX, None),
        (i64::MAX - 1, i64::MAX, Some(16_385)),
        (9, 8, None),
    ] {
        assert_eq!(
            first_between(&column, low, high),
            Ok(found),
            "{low} to {high}"
        );
    }
}

/// The values of a column of ids 0, 1, ..., by its look-ups.
fn looked_up(column: &[u8], count: u32) -> Option<Vec<i64>> {
    (0..count)
        .map(|id| match look_up(column, id) {
            Ok(Answer::Found { value, .. }) => Some(value),
            _ => None,
        })
        .collect()
}

/// The question as document 02 words it, with the directory's bytes and the look-up's step 7.
fn by_its_words(column: &[u8], values: &[u8], count: u32, low: i64, high: i64) -> Between {
    if low > high {
        return Ok(None);
    }
    for (run, first) in (0..count).step_by(16_384).enumerate() {
        let number =
            |at: usize| i64::from_le_bytes(*values[25 * run + at..].first_chunk().unwrap());
        if number(0) > high || number(8) < low {
            continue;
        }
        for id in first..count.min(first + 16_384) {
            let Answer::Found { value, .. } = look_up(column, id)? else {
                panic!("{id} is listed");
            };
            if low <= value && value <= high {
                return Ok(Some(id.into()));
            }
        }
    }
    Ok(None)
}

/// Changed sections are accepted exactly if the plain writer gives them for what they hold.
#[test]
fn changed_bytes() {
    let mut random = Random(70);
    let (mut accepted, mut refused, mut broken) = (0, 0, 0);
    for round in 0..30_000 {
        let count = 1 + random.below(5);
        let shift = random.below(65) as u32;
        let step = [1, 3, 1000][random.below(3) as usize];
        let values: Vec<i64> = (0..count)
            .map(|_| {
                (random.next().checked_shr(shift).unwrap_or(0) as i64 / step).wrapping_mul(step)
            })
            .collect();
        let mut column = written(&values);
        let start = section(&column);
        for _ in 0..random.below(3) {
            let at = match random.below(4) {
                // The start, the width, or any byte.
                0 => start + 16 + random.below(8) as usize,
                1 => start + 24,
                _ => start + random.below((column.len() - start) as u64) as usize,
            };
            column[at] = match random.below(3) {
                0 => column[at].wrapping_add(1),
                1 => column[at] ^ 1 << random.below(8),
                _ => random.next() as u8,
            };
        }
        let count = count as u32;
        let listed = looked_up(&column, count);
        let pairs = listed
            .as_ref()
            .map(|it| (0..count).zip(it.iter().copied()).collect());
        let sound = pairs.is_some_and(|pairs| plain_column(&pairs, 3, 9) == column);
        let expected = if sound {
            Ok(count.into())
        } else {
            Err(Refusal::DAMAGED)
        };
        assert_eq!(check(&column), expected, "round {round}");
        accepted += usize::from(sound);
        refused += usize::from(!sound);
        broken += usize::from(listed.is_none());
        let around = values[random.below(count.into()) as usize];
        for (low, high) in [
            (around, around),
            (i64::MIN, around),
            (around.saturating_sub(3), around.saturating_add(3)),
            (i64::MIN, i64::MAX),
            (around, around.saturating_sub(1)),
        ] {
            let found = first_between(&column, low, high);
            assert_eq!(
                found,
                by_its_words(&column, &column[start..], count, low, high)
            );
            let opened = open(&column).unwrap();
            assert_eq!(first_between_in(&opened, &column, low, high), found);
            if let (true, Some(listed)) = (sound, &listed) {
                let scanned = listed.iter().position(|&v| low <= v && v <= high);
                assert_eq!(found, Ok(scanned.map(|ordinal| ordinal as u64)));
            }
        }
    }
    assert!(
        accepted > 9000 && refused > 9000 && broken > 1000,
        "{accepted} {refused} {broken}"
    );
}

/// The header's own rules, and what the question refuses.
#[test]
fn headers() {
    let column = written(&[150, 140, 135]);
    // The smallest value, w, and V of no directory.
    for (at, byte) in [(5, 1), (6, 1), (8, 24)] {
        let mut other = column.clone();
        other[at] = byte;
        assert_eq!(open(&other), Err(Refusal::HEADER), "{at}");
        assert_eq!(first_between(&other, 0, 9), Err(Refusal::HEADER));
    }
    // A directory alone: the look-up breaks, and the check refuses.
    let mut cut = column.clone();
    cut[8] = 25;
    cut.truncate(column.len() - 1);
    assert_eq!(check(&cut), Err(Refusal::DAMAGED));
    assert_eq!(look_up(&cut, 0), Err(Refusal::BROKEN));
    assert_eq!(first_between(&cut, 0, 999), Err(Refusal::BROKEN));
    // Skipped by the summary, and unread.
    assert_eq!(first_between(&cut, 151, 999), Ok(None));
    assert_eq!(first_between(&column[..50], 9, 0), Err(Refusal::LENGTH));
    // Another edition is told by the first number, whatever follows.
    assert_eq!(first_between(&[1], 0, 9), Err(Refusal::EDITION));
    assert_eq!(first_between(&[2, 0x80, 0], 0, 9), Err(Refusal::EDITION));
    assert_eq!(
        first_between(&[3, 0x80, 0], 0, 9),
        Err(Refusal::bad_number(2))
    );
    assert_eq!(first_between(&[], 0, 9), Err(Refusal::short(0)));
    let mut opened = open(&column).unwrap();
    opened.edition = 2;
    opened.power = 6;
    assert_eq!(first_between_in(&opened, &[], 0, 9), Err(Refusal::EDITION));
    opened.edition = 3;
    assert_eq!(first_between_in(&opened, &[], 0, 9), Err(Refusal::HEADER));
    opened.power = 0;
    assert_eq!(first_between_in(&opened, &[], 0, 9), Err(Refusal::LENGTH));
}
