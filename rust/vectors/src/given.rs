//! Arguments as JSON: numbers, byte strings, lists, and objects of them.

use std::cell::RefCell;
use std::collections::HashMap;

use crate::recipe::{self, hex, list_digest};
use crate::sha256::digest;
use crate::shorten::pieces_of;
use crate::Json;

/// 2^53: a whole number beyond it, on either side of 0, is a string of its digits.
const PLAIN: i128 = 1 << 53;

/// Byte strings and lists up to these lengths stand as they are.
const PLAIN_BYTES: usize = 160;
const PLAIN_NUMBERS: usize = 40;

pub fn number(number: impl Into<i128>) -> Json {
    let number = number.into();
    match number.abs() <= PLAIN {
        true => Json::Number(number.to_string()),
        false => Json::Text(number.to_string()),
    }
}

pub fn text(text: &str) -> Json {
    Json::Text(text.to_string())
}

pub fn object<const N: usize>(entries: [(&str, Json); N]) -> Json {
    let named = |(key, value): (&str, Json)| (key.to_string(), value);
    Json::Object(entries.into_iter().map(named).collect())
}

/// A byte string: as it is, or in pieces where that is shorter.
pub fn bytes(bytes: &[u8]) -> Json {
    thread_local! {
        static KNOWN: RefCell<HashMap<Vec<u8>, Json>> = RefCell::default();
    }
    if bytes.len() <= PLAIN_BYTES {
        return text(&hex(bytes));
    }
    if let Some(known) = KNOWN.with_borrow(|known| known.get(bytes).cloned()) {
        return known;
    }
    let given = shortened(bytes);
    KNOWN.with_borrow_mut(|known| known.insert(bytes.to_vec(), given.clone()));
    given
}

fn shortened(bytes: &[u8]) -> Json {
    let plain = text(&hex(bytes));
    let recipe = object([
        ("pieces", Json::List(pieces_of(bytes))),
        ("sha256", text(&hex(&digest(bytes)))),
    ]);
    assert_eq!(recipe::bytes(&recipe), bytes, "the recipe makes them again");
    match recipe.to_string().len() < 2 * bytes.len() {
        true => recipe,
        false => plain,
    }
}

/// A list of numbers: what it holds, and how it is told.
#[derive(Clone)]
pub struct Numbers {
    pub numbers: Vec<i128>,
    pub given: Json,
}

impl Numbers {
    pub fn of(pieces: Vec<Json>) -> Self {
        let numbers: Vec<i128> = pieces.iter().flat_map(recipe::number_piece).collect();
        if numbers.len() <= PLAIN_NUMBERS {
            return Self::plain(numbers);
        }
        let given = object([
            ("pieces", Json::List(pieces)),
            ("count", number(numbers.len() as i128)),
            ("sha256", text(&list_digest(&numbers))),
        ]);
        assert_eq!(recipe::numbers(&given), numbers);
        Self { numbers, given }
    }

    pub fn plain(numbers: impl IntoIterator<Item = impl Into<i128>>) -> Self {
        let numbers: Vec<i128> = numbers.into_iter().map(Into::into).collect();
        let given = Json::List(numbers.iter().copied().map(number).collect());
        Self { numbers, given }
    }

    pub fn ids(&self) -> Vec<u32> {
        let id = |&number| u32::try_from(number).expect("an id has 32 bits");
        self.numbers.iter().map(id).collect()
    }

    pub fn values(&self) -> Vec<i64> {
        let value = |&number| i64::try_from(number).expect("a value has 64 bits");
        self.numbers.iter().map(value).collect()
    }
}

/// from, from + step, ...
pub fn steps(from: i128, step: i128, count: usize) -> Json {
    object([
        ("from", number(from)),
        ("step", number(step)),
        ("count", number(count as i128)),
    ])
}

/// These numbers again and again.
pub fn cycle(numbers: &[i128], count: usize) -> Json {
    object([
        ("cycle", Numbers::plain(numbers.iter().copied()).given),
        ("count", number(count as i128)),
    ])
}

/// plus + times * (number of so many noise bytes, mod m).
pub fn drawn(
    seed: u32,
    (size, modulus): (u32, i128),
    times: i128,
    plus: i128,
    count: usize,
) -> Json {
    object([
        ("noise", number(seed)),
        ("bytes", number(size)),
        ("mod", number(modulus)),
        ("times", number(times)),
        ("plus", number(plus)),
        ("count", number(count as i128)),
    ])
}

/// from + x for each bit x that is set in these bytes.
pub fn bits(bytes: &[u8], from: i128) -> Json {
    object([
        ("bits", Json::List(pieces_of(bytes))),
        ("from", number(from)),
    ])
}
