//! look_up_layered, layered_values.

use super::reading::{broken_headers, changed_bytes};
use super::{id, Vectors};
use crate::damage::{put, Random};
use crate::given::{bytes, Numbers};
use crate::samples::{self, MAX_ID};

/// What it is about, machine column, correction, and ids.
pub type Asked = (String, Vec<u8>, Vec<u8>, Vec<u32>);

/// Two columns and ids to ask for.
pub fn pairs() -> Vec<Asked> {
    let small = samples::small();
    let mut made = Vec::new();
    let over = |edition| {
        let (ids, values) = (
            Numbers::plain([2, 4, 65_541]),
            Numbers::plain([-1, i64::MAX, 0]),
        );
        samples::sample("a correction", &ids, &values, edition, 9)
    };
    let asked = vec![0, 2, 4, 5, 7, 65_541, 65_542, 262_144, MAX_ID, MAX_ID + 1];
    for (index, edition) in [
        (4, 1),
        (5, 2),
        (6, 3),
        (17, 4),
        (33, 2),
        (34, 4),
        (35, 3),
        (0, 1),
    ] {
        let (machine, correction) = (&small[index], over(edition));
        let about = format!("{} on {}", correction.about, machine.about);
        made.push((
            about,
            machine.bytes.clone(),
            correction.bytes.clone(),
            asked.clone(),
        ));
        let about = format!("{} on {}", machine.about, correction.about);
        made.push((
            about,
            correction.bytes,
            machine.bytes.clone(),
            asked.clone(),
        ));
    }
    let dense = samples::dense();
    let asked = vec![5, 15, 65_536, 65_537, 65_540, 70_000, 131_071, 131_072];
    for (under, top) in [(3, 1), (0, 5), (10, 12), (12, 11), (24, 3), (4, 25)] {
        let about = format!("{} on {}", dense[top].about, dense[under].about);
        made.push((
            about,
            dense[under].bytes.clone(),
            dense[top].bytes.clone(),
            asked.clone(),
        ));
    }
    made
}

/// One of the two refused.
pub fn refused() -> Vec<Asked> {
    let small = samples::small();
    let (first, table) = (&small[4].bytes, &small[19].bytes);
    let broken = &put(first, 12, &[3]);
    let made: [(&str, &[u8], &[u8], &[u32]); 6] = [
        ("both refused", &[], &[0x80, 0], &[2, MAX_ID + 1]),
        (
            "the machine column refused",
            &[1],
            table,
            &[2, 7, 8, MAX_ID + 1],
        ),
        ("the correction refused", first, &[], &[2, 8, MAX_ID + 1]),
        (
            "the machine column broken",
            broken,
            table,
            &[2, 7, 8, 65_536],
        ),
        ("the correction broken", table, broken, &[2, 7, 8, 65_536]),
        ("the same twice", first, first, &[2, 8]),
    ];
    let told = |(about, machine, correction, ids): (&str, &[u8], &[u8], &[u32])| {
        (
            about.to_string(),
            machine.to_vec(),
            correction.to_vec(),
            ids.to_vec(),
        )
    };
    made.into_iter().map(told).chain(damaged()).collect()
}

/// By turns the correction and the machine column damaged.
fn damaged() -> Vec<Asked> {
    let small = samples::small();
    let (first, table) = (&small[4].bytes, &small[19].bytes);
    let mut random = Random(19);
    let headers = broken_headers().into_iter().step_by(23);
    let changed = changed_bytes().into_iter().step_by(15);
    let mut made = Vec::new();
    for (index, (about, bytes)) in headers.chain(changed).enumerate() {
        let asked = vec![8, random.of(&[0, 2, 3, 7, 9, 65_536, 131_072])];
        made.push(match index % 2 {
            0 => (format!("correction: {about}"), first.clone(), bytes, asked),
            _ => (format!("machine: {about}"), bytes, table.clone(), asked),
        });
    }
    made
}

fn each(vectors: &mut Vectors, columns: Vec<Asked>, step: usize) {
    for (index, (about, machine, correction, ids)) in columns.into_iter().enumerate() {
        for asked in ids.into_iter().skip(index % step).step_by(step) {
            let given = [
                ("machine", bytes(&machine)),
                ("correction", bytes(&correction)),
                ("id", id(asked)),
            ];
            vectors.add(&about, given);
        }
    }
}

pub fn look_up_layered(vectors: &mut Vectors) {
    each(vectors, pairs(), 1);
    each(vectors, refused(), 1);
}

pub fn layered_values(vectors: &mut Vectors) {
    each(vectors, pairs(), 8);
    each(vectors, refused(), 2);
}
