//! set_write, set_check, set_find.

use super::{id, Vectors};
use crate::damage::{flipped, groups, put, Random};
use crate::given::{bits, bytes, number, steps, Numbers};
use crate::samples::{self, noise_bitmap, written, MAX_ID};
use crate::{Maker, Reference};

/// Lists of ids, in words.
fn lists() -> Vec<(String, Numbers)> {
    let mut made = vec![
        ("no ids".to_string(), Numbers::plain([0_u32; 0])),
        ("three ids".to_string(), Numbers::plain([0, 2, 7])),
        ("the last id".to_string(), Numbers::plain([MAX_ID])),
        (
            "four blocks".to_string(),
            Numbers::plain([1, 65_535, 65_536, 300_000, MAX_ID - 1]),
        ),
    ];
    let but_two = [steps(0, 1, 3), steps(4, 1, 254), steps(259, 1, 65_277)];
    made.push(("all but two".to_string(), Numbers::of(but_two.into())));
    for block in [0, 3] {
        for (count, ids) in samples::counts(block) {
            made.push((format!("block {block} of {count}"), ids));
        }
    }
    let three = vec![
        bits(&noise_bitmap(5), 65_536),
        steps(131_072, 1, 65_536),
        steps(200_000, 7, 30),
        bits(&noise_bitmap(6), 128 * 65_536),
    ];
    made.push(("all kinds".to_string(), Numbers::of(three)));
    made
}

fn set_of(ids: &Numbers) -> Vec<u8> {
    let ids = ids.ids();
    written(|out| Reference.set_write(&ids, out))
}

pub fn set_write(vectors: &mut Vectors) {
    let mut add = |about: &str, ids: &Numbers, room: usize| {
        let room = number(room as i128);
        vectors.add(about, [("ids", ids.given.clone()), ("room", room)]);
    };
    for (about, ids) in lists() {
        let len = set_of(&ids).len();
        for (room, more) in [
            (len, ""),
            (len + 5, ", room left"),
            (len - 1, ", a byte short"),
            (0, ", no room"),
        ] {
            add(&format!("{about}{more}"), &ids, room);
        }
    }
    for wrong in [
        &[4, 4][..],
        &[5, 4],
        &[0, 1, 2, 2, 1],
        &[4, MAX_ID + 1, 4],
        &[MAX_ID + 1, MAX_ID + 1],
    ] {
        add(
            "ids out of order",
            &Numbers::plain(wrong.iter().copied()),
            0,
        );
    }
    for wrong in [
        &[MAX_ID + 1][..],
        &[0, MAX_ID + 1, u32::MAX],
        &[1, 2, u32::MAX],
    ] {
        add(
            "an id above the limit",
            &Numbers::plain(wrong.iter().copied()),
            0,
        );
    }
}

/// Sets with one thing wrong, and some that are right.
fn damaged() -> Vec<(String, Vec<u8>)> {
    let mut made = vec![("no bytes".to_string(), vec![])];
    let small = [
        set_of(&Numbers::plain([0, 2, 7])),
        set_of(&Numbers::plain([1, 65_535, 65_536, 300_000])),
    ];
    for set in &small {
        for at in 0..set.len() {
            made.push((format!("cut off at {at}"), set[..at].to_vec()));
            for by in [1, 0x80, 0xFF] {
                made.push((format!("byte {at} changed"), flipped(set, at, by)));
            }
        }
        made.push(("a byte more".to_string(), [&set[..], &[0]].concat()));
    }
    made.extend(numbers_of_sets());
    let mut random = Random(23);
    for (about, ids) in lists().into_iter().skip(4) {
        let set = set_of(&ids);
        let mut places = vec![1, 2, 3, set.len() - 1];
        places.extend([random.below(set.len()), random.below(set.len())]);
        for at in places {
            let by = random.of(&[1, 8, 0x80, 0xFF]);
            if at < set.len() {
                made.push((format!("{about}, byte {at} changed"), flipped(&set, at, by)));
            }
        }
        made.push((
            format!("{about}, a byte less"),
            set[..set.len() - 1].to_vec(),
        ));
    }
    made
}

/// Each number of a set on both sides of its limits, and in another form.
fn numbers_of_sets() -> Vec<(String, Vec<u8>)> {
    let mut made = Vec::new();
    let join = |numbers: &[u64], data: &[u8]| -> Vec<u8> {
        let numbers = numbers.iter().flat_map(|&number| groups(number));
        numbers.chain(data.iter().copied()).collect()
    };
    for count in [0, 1, 2, 32_766, 32_767, u64::MAX] {
        made.push((format!("{count} blocks"), join(&[count, 0, 1, 0], &[])));
        made.push((format!("{count} blocks, and the end"), join(&[count], &[])));
    }
    for block in [0, 32_765, 32_766, 32_767, 65_536, u64::MAX] {
        made.push((format!("block {block}, all"), join(&[1, block, 1, 0], &[])));
    }
    for kind in [0, 1, 2, 3, 128, u64::MAX] {
        for long in [0, 1, 2, 4095, 4096, 4097, 65_536] {
            let data = match kind {
                2 => noise_bitmap(7),
                _ => (0..long.min(5000))
                    .flat_map(|it| (it as u16).to_le_bytes())
                    .collect(),
            };
            made.push((
                format!("kind {kind}, length {long}"),
                join(&[1, 9, kind, long], &data),
            ));
        }
    }
    for (about, set) in [
        ("block order", join(&[2, 5, 1, 0, 5, 1, 0], &[])),
        ("block order, falling", join(&[2, 5, 1, 0, 4, 1, 0], &[])),
        ("the number is bad, and then the kind", vec![1, 0x80, 0, 9]),
        ("the kind is bad, and then a number", vec![1, 0, 3, 0x80, 0]),
        (
            "a list that does not ascend, and then a bad number",
            vec![2, 0, 0, 2, 5, 0, 5, 0, 0x80, 0],
        ),
        ("a length of another form", vec![1, 0, 0, 0x81, 0, 7, 0]),
    ] {
        made.push((about.to_string(), set));
    }
    for ones in [4096_usize, 4097, 61_440, 61_441] {
        let mut bitmap = vec![0xFF; ones / 8];
        bitmap.push((1_u8 << (ones % 8)) - 1);
        bitmap.resize(8192, 0);
        made.push((format!("a bitmap of {ones}"), join(&[1, 0, 2, 0], &bitmap)));
    }
    made
}

pub fn set_check(vectors: &mut Vectors) {
    for (about, ids) in lists() {
        vectors.add(&about, [("bytes", bytes(&set_of(&ids)))]);
    }
    for (about, set) in damaged() {
        vectors.add(&about, [("bytes", bytes(&set))]);
    }
}

pub fn set_find(vectors: &mut Vectors) {
    let mut random = Random(31);
    let mut add = |about: &str, set: &[u8], asked: u32| {
        vectors.add(about, [("bytes", bytes(set)), ("id", id(asked))]);
    };
    for (about, ids) in lists() {
        let (set, listed) = (set_of(&ids), ids.ids());
        let mut asked = vec![0, 3, 65_536, MAX_ID];
        for _ in 0..3.min(listed.len()) {
            let id = listed[random.below(listed.len())];
            asked.extend([id, (id + 1).min(MAX_ID)]);
        }
        for asked in asked {
            add(&about, &set, asked);
        }
    }
    let set = set_of(&Numbers::plain([0, 2, 7]));
    for asked in [MAX_ID + 1, u32::MAX] {
        add("ID", &set, asked);
        add("ID before SHORT", &[], asked);
    }
    add("a fault after the id's place", &put(&set, 8, &[2]), 0);
    for (about, set) in damaged().iter().step_by(3) {
        add(
            about,
            set,
            random.of(&[0, 2, 5, 65_535, 65_536, 196_608, 300_000]),
        );
    }
}
