//! open, and the calls in a column opened before, where any numbers may stand in the header's place.

use super::layered::pairs;
use super::reading::broken_headers;
use super::{id, Vectors};
use crate::damage::put;
use crate::given::{bytes, number, object};
use crate::reply::numbers_of;
use crate::samples::{self, MAX_ID};
use crate::{Header, Json, Maker, Reference};

pub fn open(vectors: &mut Vectors) {
    let sound = [samples::small(), samples::tables(), samples::runs()];
    for sample in sound.iter().flatten() {
        vectors.add(&sample.about, [("bytes", bytes(&sample.bytes))]);
    }
    for (about, broken) in broken_headers().iter().step_by(5) {
        vectors.add(about, [("bytes", bytes(broken))]);
    }
}

pub fn given(header: &Header) -> Json {
    object(numbers_of(header))
}

pub fn header(bytes: &[u8]) -> Header {
    Reference.open(bytes).expect("a column")
}

/// What is done to a column's own numbers.
const CHANGES: [(&str, fn(&mut Header)); 19] = [
    ("its own numbers", |_| {}),
    ("no such edition", |it| it.edition = 0),
    ("no such edition", |it| it.edition = 5),
    ("another edition", |it| it.edition = it.edition % 4 + 1),
    ("another count", |it| it.count += 1),
    ("a count above the limit", |it| {
        it.count = u64::from(MAX_ID) + 2
    }),
    ("no such power", |it| it.power = 6),
    ("more id bytes", |it| it.id_bytes += 2),
    ("too few id bytes", |it| it.id_bytes = 5),
    ("id bytes that wrap", |it| it.id_bytes = u64::MAX),
    ("jump entries", |it| it.jump_count += 1),
    ("no such width", |it| it.width = 65),
    ("another smallest", |it| it.smallest = i64::MIN),
    ("no divisor", |it| it.divisor = 0),
    ("another divisor", |it| it.divisor += 3),
    ("another start", |it| {
        it.start += 2;
        it.id_bytes -= 2;
    }),
    ("a start that wraps", |it| {
        it.start = it.id_bytes.wrapping_neg()
    }),
    ("a sum that wraps", |it| {
        it.id_bytes += it.start + it.value_bytes;
        it.start = it.value_bytes.wrapping_neg();
    }),
    ("more value bytes", |it| it.value_bytes += 1),
];

pub const BROKEN: &str = "a step fails";

/// A column of edition 3 whose run has a width of 65, and one of edition 1 with more ids than n.
pub fn broken() -> [Vec<u8>; 2] {
    let small = samples::small();
    [
        put(&small[6].bytes, 49, &[65]),
        put(&small[4].bytes, 12, &[3]),
    ]
}

pub fn of_small() -> Vec<(String, Header, Vec<u8>)> {
    let small = samples::small();
    let mut made = Vec::new();
    for sample in [0, 4, 5, 6, 19, 32, 34].map(|index| &small[index]) {
        for (what, change) in CHANGES {
            let mut numbers = header(&sample.bytes);
            change(&mut numbers);
            let about = format!("{}, {what}", sample.about);
            made.push((about, numbers, sample.bytes.clone()));
        }
    }
    for column in broken() {
        made.push((BROKEN.to_string(), header(&column), column));
    }
    made
}

pub fn look_up_in(vectors: &mut Vectors) {
    for (index, (about, header, column)) in of_small().into_iter().enumerate() {
        let asked = [2, 7, 65_541, 0][index % 4];
        for asked in [asked, MAX_ID + 1]
            .into_iter()
            .take(1 + usize::from(index % 9 == 0))
        {
            vectors.add(
                &about,
                [
                    ("column", given(&header)),
                    ("bytes", bytes(&column)),
                    ("id", id(asked)),
                ],
            );
        }
    }
}

pub fn next_in(vectors: &mut Vectors) {
    for (index, (about, header, column)) in of_small().into_iter().enumerate().step_by(2) {
        let (cursor, target) =
            [(0, 3), (4, 3), (0, 65_536), (1, MAX_ID + 1), (0, 0)][index / 2 % 5];
        let given = [
            ("column", given(&header)),
            ("bytes", bytes(&column)),
            ("cursor", id(cursor)),
            ("target", id(target)),
        ];
        vectors.add(&about, given);
    }
}

pub fn first_between_in(vectors: &mut Vectors) {
    for (index, (about, header, column)) in of_small().into_iter().enumerate() {
        if header.edition == 3 || index % 3 == 0 {
            let (low, high) = match about == BROKEN {
                true => (i64::MIN, i64::MAX),
                false => [(0, 140), (9, 0), (i64::MIN, i64::MAX)][index % 3],
            };
            let given = [
                ("column", given(&header)),
                ("bytes", bytes(&column)),
                ("low", number(low)),
                ("high", number(high)),
            ];
            vectors.add(&about, given);
        }
    }
}

pub fn look_up_layered_in(vectors: &mut Vectors) {
    let mut add = |about: &str,
                   (x, machine): (&Header, &[u8]),
                   (y, correction): (&Header, &[u8]),
                   asked: u32| {
        let given = [
            ("machine_column", given(x)),
            ("machine", bytes(machine)),
            ("correction_column", given(y)),
            ("correction", bytes(correction)),
            ("id", id(asked)),
        ];
        vectors.add(about, given);
    };
    let [broken, _] = broken();
    let first = &samples::small()[4].bytes;
    let (x, y) = (header(first), header(&broken));
    for asked in [0, 2, 3] {
        add("the correction broken", (&x, first), (&y, &broken), asked);
        add(
            "the machine column broken",
            (&y, &broken),
            (&x, first),
            asked,
        );
    }
    for (about, machine, correction, ids) in pairs().into_iter().take(12) {
        let (x, y) = (header(&machine), header(&correction));
        for &asked in ids.iter().step_by(3) {
            add(&about, (&x, &machine), (&y, &correction), asked);
        }
        let (no, short) = (
            Header { edition: 9, ..x },
            Header {
                id_bytes: y.id_bytes + 1,
                ..y
            },
        );
        add(
            &format!("{about}, the machine's numbers are none"),
            (&no, &machine),
            (&y, &correction),
            5,
        );
        add(
            &format!("{about}, the correction is too short"),
            (&no, &machine),
            (&short, &correction),
            2,
        );
    }
}
