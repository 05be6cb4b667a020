//! look_up_layered_page, read_layered_from, and these in two columns opened before.

use super::layered::{pairs, refused, Asked};
use super::opened::{broken, given, header};
use super::{id, Vectors};
use crate::damage::put;
use crate::given::{bytes, number, Numbers};
use crate::samples::{self, MAX_ID};
use crate::{Header, Json};

/// Places for the lists beyond the ids; a list may be one short.
const ROOMS: [[i128; 4]; 6] = [
    [0, 0, 0, 0],
    [0, 2, 1, 0],
    [0, 0, 0, 3],
    [-1, 0, 0, 0],
    [0, 0, 0, -1],
    [1, 0, 0, 0],
];

/// Places for ids, values and columns.
const PLACES: [[i128; 3]; 6] = [
    [3, 3, 3],
    [1, 4, 2],
    [0, 0, 0],
    [9, 8, 9],
    [20, 20, 20],
    [4, 4, 1],
];

/// Sound columns, refused ones and damaged ones, by turns.
fn some() -> Vec<Asked> {
    let mut some: Vec<Asked> = pairs().into_iter().step_by(3).collect();
    let refused = refused();
    some.extend(refused[..6].iter().cloned());
    some.extend(refused[6..].iter().step_by(4).cloned());
    some
}

/// The arguments that say what lists are lent for a page of these ids.
fn page(ids: &[u32], turn: usize) -> [(&'static str, Json); 5] {
    let room = |list: usize| number((ids.len() as i128 + ROOMS[turn % ROOMS.len()][list]).max(0));
    [
        ("ids", Numbers::plain(ids.iter().copied()).given),
        ("ordinals_room", room(0)),
        ("values_room", room(1)),
        ("kinds_room", room(2)),
        ("columns_room", room(3)),
    ]
}

/// The same for a reading from an id on.
fn reading(from: u32, turn: usize) -> [(&'static str, Json); 4] {
    let [ids, values, columns] = PLACES[turn % PLACES.len()].map(number);
    [
        ("id", id(from)),
        ("ids_room", ids),
        ("values_room", values),
        ("columns_room", columns),
    ]
}

fn two(machine: &[u8], correction: &[u8]) -> [(&'static str, Json); 2] {
    [
        ("machine", bytes(machine)),
        ("correction", bytes(correction)),
    ]
}

fn opened(
    (x, machine): (&Header, &[u8]),
    (y, correction): (&Header, &[u8]),
) -> [(&'static str, Json); 4] {
    let [(_, machine), (_, correction)] = two(machine, correction);
    [
        ("machine_column", given(x)),
        ("machine", machine),
        ("correction_column", given(y)),
        ("correction", correction),
    ]
}

pub fn look_up_layered_page(vectors: &mut Vectors) {
    for (turn, (about, machine, correction, ids)) in some().into_iter().enumerate() {
        // In another order, and the first again.
        let mut ids: Vec<u32> = ids.into_iter().rev().collect();
        ids.extend(ids.last().copied());
        vectors.add_all(&about, two(&machine, &correction), page(&ids, turn));
    }
    vectors.add_all("no ids", two(&[], &[]), page(&[], 0));
}

pub fn read_layered_from(vectors: &mut Vectors) {
    for (turn, (about, machine, correction, ids)) in some().into_iter().enumerate() {
        let from = match turn % 3 {
            0 => 0,
            1 => ids[ids.len() / 2],
            _ => ids[0],
        };
        let given = two(&machine, &correction);
        vectors.add_all(&about, given, reading(from, turn));
    }
    let (broken, sound) = not_passed_over();
    for (about, machine, correction) in [
        (
            "a pair that cannot be read is not passed over",
            &broken,
            &sound,
        ),
        ("the correction's neither", &sound, &broken),
        ("refused by both", &broken, &broken),
    ] {
        for (turn, from) in [0, 1, 3, 8, 10].into_iter().enumerate() {
            let given = two(machine, correction);
            vectors.add_all(about, given, reading(from, turn + 3));
        }
    }
    let every = samples::every_id();
    let (sound, every) = (&sound[..], &every[..]);
    for (about, machine, correction, from) in [
        ("ID before SHORT", &[][..], &[][..], MAX_ID + 1),
        ("the correction's SHORT", sound, &[][..], MAX_ID),
        ("the machine column's SHORT", &[][..], sound, 0),
        ("the correction's EDITION", sound, &[5, 0x80, 0][..], 0),
        ("the machine column's LENGTH", &sound[..26], sound, 0),
        ("the greatest id", every, sound, MAX_ID),
        ("all ids", every, sound, 0),
    ] {
        vectors.add_all(about, two(machine, correction), reading(from, 0));
    }
}

/// Ids 0, 2 and 7, of which the value of 7 does not fit with another divisor; and some ids around them.
fn not_passed_over() -> (Vec<u8>, Vec<u8>) {
    let column = |ids: [u32; 3], values: [i64; 3]| {
        let (ids, values) = (Numbers::plain(ids), Numbers::plain(values));
        samples::sample("three pairs", &ids, &values, 1, 9).bytes
    };
    let great = column([0, 2, 7], [i64::MAX - 7, i64::MAX - 6, i64::MAX]);
    assert_eq!(great[16], 1, "the divisor");
    (put(&great, 16, &[2]), column([1, 2, 9], [10, 20, 90]))
}

/// Two columns with their own numbers, and with others.
fn by_numbers(mut add: impl FnMut(usize, &str, (&Header, &[u8]), (&Header, &[u8]), &[u32])) {
    let [broken, _] = broken();
    let first = &samples::small()[4].bytes;
    let (x, y) = (header(first), header(&broken));
    let asked = [0, 2, 3];
    add(
        0,
        "the correction broken",
        (&x, first),
        (&y, &broken),
        &asked,
    );
    add(
        2,
        "the machine column broken",
        (&y, &broken),
        (&x, first),
        &asked,
    );
    for (turn, (about, machine, correction, ids)) in pairs().into_iter().take(8).enumerate() {
        let (x, y) = (header(&machine), header(&correction));
        add(turn, &about, (&x, &machine), (&y, &correction), &ids);
        let no = Header { edition: 9, ..x };
        let (about, told) = match turn % 3 {
            0 => ("the machine's numbers are none", (no, y)),
            1 => (
                "the correction's numbers are none",
                (x, Header { power: 6, ..y }),
            ),
            _ => {
                let more = y.id_bytes + 1;
                (
                    "the correction is too short",
                    (
                        no,
                        Header {
                            id_bytes: more,
                            ..y
                        },
                    ),
                )
            }
        };
        add(
            turn,
            about,
            (&told.0, &machine),
            (&told.1, &correction),
            &ids,
        );
    }
}

pub fn look_up_layered_page_in(vectors: &mut Vectors) {
    by_numbers(|turn, about, machine, correction, ids| {
        vectors.add_all(about, opened(machine, correction), page(ids, turn));
    });
}

pub fn read_layered_from_in(vectors: &mut Vectors) {
    by_numbers(|turn, about, machine, correction, ids| {
        let from = if turn == 5 { MAX_ID + 1 } else { ids[turn % 2] };
        let given = opened(machine, correction);
        vectors.add_all(about, given, reading(from, turn));
    });
}
