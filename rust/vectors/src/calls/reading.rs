//! check, read.

use super::Vectors;
use crate::damage::{
    flipped, header_of, numbers_of, put, sections, with_bytes, with_number, Random,
};
use crate::given::{bytes, number};
use crate::samples::{self, Sample};

/// Bytes with headers that break each rule, by what is broken.
pub fn broken_headers() -> Vec<(String, Vec<u8>)> {
    let small = samples::small();
    let mut made = vec![("no bytes".to_string(), Vec::new())];
    let column = &small[4].bytes;
    let groups = [0x80_u8; 10];
    for index in 0..9 {
        let (_, places) = numbers_of(column);
        for len in [0, 1, 8, 9] {
            let cut = [&column[..places[index]], &groups[..len]].concat();
            made.push((format!("ends in header number {}", index + 1), cut));
        }
        for len in [1, 2, 8] {
            let number = [&groups[..len], &[0]].concat();
            made.push((
                format!("header number {} ends in 0", index + 1),
                with_bytes(column, index, &number),
            ));
        }
        for tenth in [0, 2, 0x7F, 0x80, 0x81, 0xFF] {
            let number = [&[0xFF; 9][..], &[tenth, 1]].concat();
            let about = format!("header number {} and its tenth byte", index + 1);
            made.push((about, with_bytes(column, index, &number)));
        }
        made.push((
            format!("header number {} of ten bytes", index + 1),
            with_number(column, index, u64::MAX),
        ));
    }
    for sample in [&small[4], &small[5], &small[6], &small[19], &small[9]] {
        made.extend(other_numbers(sample));
    }
    for sample in samples::widths().iter().filter(|it| it.edition == 1) {
        let about = format!("{}, called edition 2", sample.about);
        made.push((about, with_number(&sample.bytes, 0, 2)));
    }
    made.push((
        "sections whose bytes are the right sum modulo 2^64".to_string(),
        wrapping_sum(),
    ));
    made.extend(limits());
    made.push(("EDITION before a bad number".to_string(), vec![5, 0x80, 0]));
    made.push(("edition 2, then a bad number".to_string(), vec![2, 0x80, 0]));
    made
}

/// Headers whose sizes agree, on both sides of each limit: HEADER, or LENGTH, since no sections follow.
fn limits() -> Vec<(String, Vec<u8>)> {
    let headers = [
        (
            "32767 jump entries",
            [1, 3, 9, 262_142, 32_767, 2, 270, 5, 1],
        ),
        (
            "32768 jump entries",
            [1, 3, 9, 262_150, 32_768, 2, 270, 5, 1],
        ),
        ("L is 6 + 8J", [1, 3, 9, 30, 3, 2, 270, 5, 1]),
        ("L is less by one", [1, 3, 9, 29, 3, 2, 270, 5, 1]),
        ("width 64", [1, 3, 9, 16, 0, 64, 270, 5, 24]),
        ("width 65", [1, 3, 9, 16, 0, 65, 270, 5, 25]),
        (
            "the most pairs",
            [1, 2_147_352_576, 9, 16, 0, 1, 0, 1, 268_419_072],
        ),
        (
            "a pair more",
            [1, 2_147_352_577, 9, 16, 0, 1, 0, 1, 268_419_073],
        ),
        ("16384 pairs in runs", [3, 16_384, 9, 16, 0, 0, 0, 1, 25]),
        (
            "16385 pairs in runs, a directory of one",
            [3, 16_385, 9, 16, 0, 0, 0, 1, 49],
        ),
        ("16385 pairs in runs", [3, 16_385, 9, 16, 0, 0, 0, 1, 50]),
        ("a table of one", [4, 4, 9, 18, 0, 0, 0, 1, 8]),
        ("a table of two", [4, 4, 9, 18, 0, 1, 0, 2, 17]),
        ("a table of 256", [4, 4, 9, 18, 0, 8, 0, 256, 2052]),
        ("a table of 257", [4, 4, 9, 18, 0, 9, 0, 257, 2061]),
        ("a table of four at width 3", [4, 4, 9, 18, 0, 3, 0, 4, 34]),
    ];
    let told = |(about, numbers): (&str, [u64; 9])| (about.to_string(), header_of(&numbers));
    headers.map(told).into()
}

/// Edition 3 with L and V so great that header, L and V together are the byte count and 2^64.
fn wrapping_sum() -> Vec<u8> {
    let (rest, more) = (60, 100);
    let head = header_of(&[3, 3, 9, rest + more, 0, 0, 0, 1, u64::MAX - more + 1]);
    [head, vec![0; rest as usize]].concat()
}

/// Each header number in turn a little or much greater or smaller: HEADER, LENGTH or DAMAGED.
fn other_numbers(sample: &Sample) -> Vec<(String, Vec<u8>)> {
    let (numbers, _) = numbers_of(&sample.bytes);
    let mut made = Vec::new();
    for (index, number) in numbers.into_iter().enumerate() {
        let others: &[u64] = match index {
            0 => &[0, 1, 2, 3, 4, 5, 1 << 32 | 1],
            1 => &[2_147_352_576, 2_147_352_577, 16_385],
            2 => &[0, 1, 6, 7, 15, 16, 1 << 40],
            3 => &[0, 5, u64::MAX, u64::MAX - 9],
            4 => &[0, 1, 2, 32_767, 32_768, 1 << 61],
            5 => &[0, 1, 3, 8, 64, 65, 1 << 63],
            6 => &[0, 1, u64::MAX],
            7 => &[0, 1, 2, 256, 257, u64::MAX],
            _ => &[0, 25, u64::MAX, u64::MAX - 20],
        };
        let near = [number.wrapping_sub(1), number + 1];
        for other in others.iter().copied().chain(near) {
            let about = format!("{}, header number {} is {other}", sample.about, index + 1);
            made.push((about, with_number(&sample.bytes, index, other)));
        }
    }
    made
}

/// Columns with one byte changed, everywhere in short ones.
pub fn changed_bytes() -> Vec<(String, Vec<u8>)> {
    let mut made = Vec::new();
    let mut random = Random(7);
    for (index, sample) in samples::small().iter().enumerate() {
        let bytes = &sample.bytes;
        for at in 0..bytes.len() {
            let all = matches!(index, 4 | 6 | 19 | 32);
            let some = random.below(25) == 0;
            if all || some {
                let by = random.of(&[1, 2, 4, 0x10, 0x40, 0x80, 0xFF]);
                made.push((
                    format!("{}, byte {at} changed", sample.about),
                    flipped(bytes, at, by),
                ));
            }
        }
    }
    made
}

/// Long columns with one thing wrong.
pub fn damaged_long() -> Vec<(String, Vec<u8>)> {
    let mut made = Vec::new();
    let mut random = Random(11);
    let long = [samples::dense(), samples::runs(), samples::tables()];
    for sample in long.iter().flatten() {
        let (ids, values) = sections(&sample.bytes);
        let head = [ids + 2, ids + 4, ids + 5, ids + 7, values - 1, values - 6];
        let mut places = vec![random.of(&head), random.of(&head), sample.bytes.len() - 1];
        places.push(ids + random.below(values - ids));
        if sample.bytes.len() > values {
            places.push(values + random.below(sample.bytes.len() - values));
        }
        for at in places {
            let by = random.of(&[1, 8, 0x80, 0xFF]);
            let about = format!("{}, byte {at} changed", sample.about);
            made.push((about, flipped(&sample.bytes, at, by)));
        }
    }
    made.extend(sound_in_part());
    made
}

/// Values that fit, in a form that the writer does not give.
fn sound_in_part() -> Vec<(String, Vec<u8>)> {
    let first = &samples::small()[4].bytes;
    let mut made = vec![
        (
            "stored numbers 2, 1, 0: sound".to_string(),
            put(first, 26, &[0x90]),
        ),
        ("no stored number is 0".to_string(), put(first, 26, &[0xD4])),
        ("a width too great".to_string(), put(first, 26, &[0x50])),
        (
            "stored numbers 2, 2, 0: a greater divisor".to_string(),
            put(first, 26, &[0xA0]),
        ),
        ("spare bits".to_string(), put(first, 26, &[0xD1])),
        (
            "another divisor: sound".to_string(),
            with_number(first, 7, 6),
        ),
        (
            "a value above the greatest".to_string(),
            with_number(first, 7, 1 << 62),
        ),
        (
            "another smallest: sound".to_string(),
            with_number(first, 6, 0),
        ),
        ("a byte more".to_string(), [&first[..], &[0]].concat()),
        ("a byte less".to_string(), first[..26].to_vec()),
    ];
    let every = samples::every_id();
    made.push(("all 2147352576 ids: sound".to_string(), every.clone()));
    made.push((
        "all ids, but one block's number".to_string(),
        flipped(&every, 15 + 4 * 9000, 1),
    ));
    made
}

pub fn check(vectors: &mut Vectors) {
    let sound = [
        samples::small(),
        samples::widths(),
        samples::tables(),
        samples::dense(),
        samples::runs(),
    ];
    for sample in sound.iter().flatten() {
        vectors.add(&sample.about, [("bytes", bytes(&sample.bytes))]);
    }
    for (about, damaged) in [broken_headers(), changed_bytes(), damaged_long()].concat() {
        vectors.add(&about, [("bytes", bytes(&damaged))]);
    }
}

pub fn read(vectors: &mut Vectors) {
    let mut add = |about: &str, column: &[u8], ids: usize, values: usize| {
        let given = [
            ("bytes", bytes(column)),
            ("ids_room", number(ids as i128)),
            ("values_room", number(values as i128)),
        ];
        vectors.add(about, given);
    };
    for Sample {
        about, ids, bytes, ..
    } in &samples::small()
    {
        let count = ids.numbers.len();
        add(about, bytes, count, count + 2);
        if count > 0 {
            add(&format!("{about}, too few ids"), bytes, count - 1, count);
            add(
                &format!("{about}, too few values"),
                bytes,
                count + 1,
                count - 1,
            );
        }
    }
    for sample in [
        samples::widths(),
        samples::tables(),
        samples::dense(),
        samples::runs(),
    ]
    .concat()
    {
        let count = sample.ids.numbers.len();
        add(&sample.about, &sample.bytes, count, count);
    }
    let first = &samples::small()[4].bytes;
    let damaged = put(first, 26, &[0xD1]);
    add("BUFFER before DAMAGED", &damaged, 2, 3);
    add("DAMAGED", &damaged, 3, 4);
    add("LENGTH before BUFFER", &first[..26], 0, 0);
    let every = with_number(&samples::every_id(), 6, 4);
    add("BUFFER by what the header claims", &every, 1, 0);
    for (about, broken) in broken_headers().iter().step_by(20) {
        add(about, broken, 3, 3);
    }
    for (about, damaged) in changed_bytes().iter().step_by(15) {
        add(about, damaged, 6, 6);
    }
}
