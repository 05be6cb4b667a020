//! Recipes: long byte strings and long lists, told in pieces. `conformance/README.md` has them in words.

use crate::sha256::digest;
use crate::Json;

/// The noise after a seed: each step gives a byte, and the state after it is a seed too.
pub struct Noise(pub u32);

impl Iterator for Noise {
    type Item = u8;

    fn next(&mut self) -> Option<u8> {
        self.0 = self.0.wrapping_mul(1_664_525).wrapping_add(1_013_904_223);
        Some((self.0 >> 24) as u8)
    }
}

/// A whole number: a JSON number, or a string of its digits.
pub fn number(value: &Json) -> i128 {
    match value {
        Json::Number(digits) | Json::Text(digits) => digits.parse().expect("a whole number"),
        other => panic!("{other} is no number"),
    }
}

/// The number with this name in an object.
pub fn field(object: &Json, key: &str) -> i128 {
    number(
        object
            .get(key)
            .unwrap_or_else(|| panic!("no `{key}` in {object}")),
    )
}

/// Bytes in hexadecimal digits.
pub fn hex(bytes: &[u8]) -> String {
    bytes.iter().map(|byte| format!("{byte:02x}")).collect()
}

/// The bytes of a hexadecimal string.
pub fn from_hex(text: &str) -> Vec<u8> {
    let digits = text.as_bytes().chunks_exact(2);
    let byte = |pair| u8::from_str_radix(std::str::from_utf8(pair).expect("ASCII"), 16);
    digits.map(|pair| byte(pair).expect("two digits")).collect()
}

/// The bytes that an argument stands for: a hexadecimal string, or pieces with the digest of all.
pub fn bytes(given: &Json) -> Vec<u8> {
    match given {
        Json::Text(text) => from_hex(text),
        recipe => {
            let bytes = joined(recipe.get("pieces").expect("pieces"), byte_piece);
            assert_eq!(
                Some(&Json::Text(hex(&digest(&bytes)))),
                recipe.get("sha256")
            );
            bytes
        }
    }
}

/// The numbers that an argument stands for: a list, or pieces with the digest of all.
pub fn numbers(given: &Json) -> Vec<i128> {
    match given {
        Json::List(list) => list.iter().map(number).collect(),
        recipe => {
            let numbers = joined(recipe.get("pieces").expect("pieces"), number_piece);
            assert_eq!(numbers.len() as i128, field(recipe, "count"));
            assert_eq!(
                Some(&Json::Text(list_digest(&numbers))),
                recipe.get("sha256")
            );
            numbers
        }
    }
}

/// The digest of a list: of its numbers in 8 bytes each, two's complement, low byte first.
pub fn list_digest(numbers: &[i128]) -> String {
    let bytes: Vec<u8> = (numbers.iter())
        .flat_map(|&number| (number as u64).to_le_bytes())
        .collect();
    hex(&digest(&bytes))
}

fn joined<T>(pieces: &Json, piece: fn(&Json) -> Vec<T>) -> Vec<T> {
    let Json::List(pieces) = pieces else {
        panic!("pieces are a list");
    };
    pieces.iter().flat_map(piece).collect()
}

fn byte_piece(piece: &Json) -> Vec<u8> {
    if let Json::Text(text) = piece {
        return from_hex(text);
    }
    if let Some(Json::Text(text)) = piece.get("repeat") {
        return from_hex(text).repeat(field(piece, "times") as usize);
    }
    if let Some(seed) = piece.get("noise") {
        return Noise(number(seed) as u32)
            .take(field(piece, "bytes") as usize)
            .collect();
    }
    let (from, step, size) = (
        field(piece, "from"),
        field(piece, "step"),
        field(piece, "size") as usize,
    );
    let high = piece.get("order").and_then(Json::text) == Some("high");
    let each = |index: i128| {
        let bytes = ((from + index * step) as u64).to_le_bytes();
        let mut bytes = bytes[..size].to_vec();
        if high {
            bytes.reverse();
        }
        bytes
    };
    (0..field(piece, "count")).flat_map(each).collect()
}

/// The numbers of one piece.
pub fn number_piece(piece: &Json) -> Vec<i128> {
    if let Json::List(list) = piece {
        return list.iter().map(number).collect();
    }
    if let Some(bits) = piece.get("bits") {
        let (bytes, from) = (joined(bits, byte_piece), field(piece, "from"));
        let set = |x: &usize| bytes[x / 8] >> (x % 8) & 1 == 1;
        return (0..8 * bytes.len())
            .filter(set)
            .map(|x| from + x as i128)
            .collect();
    }
    let count = field(piece, "count") as usize;
    if let Some(cycle) = piece.get("cycle") {
        return numbers(cycle).into_iter().cycle().take(count).collect();
    }
    if let Some(seed) = piece.get("noise") {
        let mut noise = Noise(number(seed) as u32);
        let (size, modulus) = (field(piece, "bytes") as u32, field(piece, "mod"));
        let (times, plus) = (field(piece, "times"), field(piece, "plus"));
        let mut each = || {
            let bytes = (0..size).zip(&mut noise);
            let drawn = bytes.fold(0, |sum, (i, byte)| sum + (i128::from(byte) << (8 * i)));
            plus + times * (drawn % modulus)
        };
        return (0..count).map(|_| each()).collect();
    }
    let (from, step) = (field(piece, "from"), field(piece, "step"));
    (0..count as i128)
        .map(|index| from + index * step)
        .collect()
}
