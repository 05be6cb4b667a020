//! Damaged columns for the steps of a look-up, and ids that meet the damage.

use crate::damage::{flipped, put, sections, with_number, Random};
use crate::samples::{self, MAX_ID};

/// What is damaged, the bytes, and the ids.
type Damaged = (String, Vec<u8>, Vec<u32>);

/// All of them.
pub fn for_the_steps() -> Vec<Damaged> {
    let parts = [
        short_columns(),
        jump_entries(),
        runs_for_the_steps(),
        dense_for_the_steps(),
    ];
    parts.concat()
}

/// Heads, entries of a block, codes and header numbers that lie.
fn short_columns() -> Vec<Damaged> {
    let small = samples::small();
    let (first, table) = (&small[4].bytes, &small[19].bytes);
    let greatest = with_number(first, 7, 1 << 62);
    let descending = put(table, 27, &[9, 0, 0, 0, 0, 0, 0, 0]);
    let made: [(&str, Vec<u8>, &[u32]); 9] = [
        ("entries 9, 2, 7", put(first, 14, &[9]), &[2, 7, 9, 3, 10]),
        (
            "another block's number",
            put(first, 10, &[1]),
            &[0, 65_536, 131_072],
        ),
        ("more ids than n", put(first, 12, &[3]), &[0, 7]),
        ("data past their end", put(first, 12, &[7]), &[0]),
        ("a code of T", put(table, 51, &[0x8E]), &[0, 7, 9]),
        ("a table that does not ascend", descending, &[0, 2, 7]),
        ("a value above the greatest", greatest.clone(), &[0, 2, 7]),
        (
            "a value above, below 0",
            with_number(&greatest, 6, u64::MAX),
            &[0, 2, 7],
        ),
        (
            "a divisor of 2^64 - 1",
            with_number(first, 7, u64::MAX),
            &[0, 2, 7],
        ),
    ];
    let told =
        |(about, bytes, ids): (&str, Vec<u8>, &[u32])| (about.to_string(), bytes, ids.to_vec());
    made.into_iter().map(told).collect()
}

/// Each of the six jump entries of a column of five blocks, changed.
fn jump_entries() -> Vec<Damaged> {
    let blocks = &samples::small()[32].bytes;
    let mut made = Vec::new();
    let (ids, values) = sections(blocks);
    assert_eq!(values - ids, 28 + 48, "28 bytes of blocks and six entries");
    for entry in 0..6 {
        let at = values - 48 + 8 * entry;
        for (about, place, number) in [
            ("ordinal", at, 1_u32),
            ("ordinal, the greatest", at, u32::MAX),
            ("start", at + 4, 8),
            ("start past the blocks", at + 4, 39),
            ("start, the greatest", at + 4, u32::MAX),
            ("start within a block", at + 4, 2),
            ("start, three bytes before the entries", at + 4, 25),
            ("start, four bytes before the entries", at + 4, 24),
        ] {
            let asked = vec![10, 65_542, [131_072, 262_144, MAX_ID][entry % 3]];
            let about = format!("jump entry {entry}: another {about}");
            made.push((about, put(blocks, place, &number.to_le_bytes()), asked));
        }
    }
    let lies = put(blocks, ids + 2, &[0xFF, 0xFF]);
    made.push(("a head that lies".to_string(), lies, vec![3, 10, 65_541]));
    made
}

/// Directories that lie.
pub fn runs_for_the_steps() -> Vec<Damaged> {
    let mut made = Vec::new();
    let runs = samples::runs();
    for (sample, run) in [
        (&runs[1], 1),
        (&runs[3], 0),
        (&runs[3], 1),
        (&runs[4], 1),
        (&runs[4], 2),
    ] {
        let directory = sections(&sample.bytes).1 + 25 * run;
        let asked: Vec<u32> = [1, 16_383].map(|k| k + 16_384 * run as u32).into();
        for (about, at, others) in [
            ("width 65", 24, &[65][..]),
            ("width 255", 24, &[255]),
            ("width 64", 24, &[64]),
            ("width 0", 24, &[0]),
            ("start past the end", 16, &[0, 0, 0, 1, 0, 0, 0, 0]),
            ("start, the greatest", 16, &[0xFF; 8]),
            ("another smallest", 0, &[7, 0, 0, 0, 0, 0, 0, 0x80]),
            (
                "smallest, the greatest",
                0,
                &[0xFF, 0xFF, 0xFF, 0xFF, 0xFF, 0xFF, 0xFF, 0x7F],
            ),
            ("greatest below the values", 8, &[0, 0, 0, 0, 0, 0, 0, 0x80]),
        ] {
            let about = format!("{}, run {run}: {about}", sample.about);
            made.push((
                about,
                put(&sample.bytes, directory + at, others),
                asked.clone(),
            ));
        }
        let (width, start) = (put(&sample.bytes, directory + 24, &[0]), directory + 16);
        let nowhere = put(&width, start, &[0xFF; 8]);
        made.push((
            format!("{}, run {run}: width 0 and no start", sample.about),
            nowhere,
            asked,
        ));
    }
    made
}

/// Ranks, counts and bitmaps that lie.
fn dense_for_the_steps() -> Vec<Damaged> {
    let mut made = Vec::new();
    let mut random = Random(29);
    for sample in samples::dense().iter().take(10) {
        let (ids, _) = sections(&sample.bytes);
        let listed = sample.ids.ids();
        let asked: Vec<u32> = (0..2).map(|_| listed[random.below(listed.len())]).collect();
        let ranks = if sample.power > 0 {
            1 << (17 - sample.power)
        } else {
            0
        };
        for id in &asked {
            let place = (id & 0xFFFF) as usize;
            let long = ids + 4 + ranks + place / 64 * 8;
            let mut damaged = vec![(
                "the long before",
                flipped(&sample.bytes, (long - 8).max(ids + 4), 0x10),
            )];
            damaged.push((
                "its own bit",
                flipped(&sample.bytes, long + place % 64 / 8, 1 << (place % 8)),
            ));
            if sample.power > 0 {
                let rank = ids + 4 + 2 * (place >> sample.power);
                damaged.push(("rank, low byte", flipped(&sample.bytes, rank + 1, 1)));
                damaged.push(("rank, high byte", put(&sample.bytes, rank, &[0xFF])));
            }
            for (about, bytes) in damaged {
                made.push((
                    format!("{}, changed: {about}", sample.about),
                    bytes,
                    vec![*id, id + 1],
                ));
            }
        }
        made.push((
            format!("{}, a count of 65535", sample.about),
            put(&sample.bytes, ids + 2, &[0xFE, 0xFF]),
            asked,
        ));
    }
    made
}
