//! JSON objects, one a line.
//!
//! One rule for numbers: values, ordinals and header numbers are strings of digits, since readers such as jq and
//! JavaScript round numbers above 2^53; ids, counts, places and refusal numbers are numbers, and stay far below.

use std::fmt::Write;
use std::os::unix::ffi::OsStrExt;
use std::path::Path;

use crate::text::{hex, is_plain};

/// An object under way.
pub struct Object(String);

impl Object {
    pub fn new() -> Self {
        Self("{".to_string())
    }

    fn key(&mut self, key: &str) {
        if self.0.len() > 1 {
            self.0.push(',');
        }
        put_string(&mut self.0, key);
        self.0.push(':');
    }

    pub fn text(mut self, key: &str, value: &str) -> Self {
        self.key(key);
        put_string(&mut self.0, value);
        self
    }

    /// A file's name, escaped as JSON escapes and no further. Of one that is no UTF-8, the bytes stand beside it.
    pub fn file(self, key: &str, path: &Path) -> Self {
        let bytes = path.as_os_str().as_bytes();
        let object = self.text(key, &String::from_utf8_lossy(bytes));
        match std::str::from_utf8(bytes) {
            Ok(_) => object,
            Err(_) => object.text(&format!("{key}_hex"), &hex(bytes)),
        }
    }

    /// A number that is small whatever comes: an id, a count, a place.
    pub fn number(mut self, key: &str, value: impl Into<i128>) -> Self {
        self.key(key);
        self.0.push_str(&value.into().to_string());
        self
    }

    /// A number that may be above 2^53, or is of a kind that may: a string of its digits.
    pub fn long(self, key: &str, value: impl Into<i128>) -> Self {
        self.text(key, &value.into().to_string())
    }

    pub fn texts(self, key: &str, values: &[String]) -> Self {
        let strings = values.iter().map(|value| {
            let mut out = String::new();
            put_string(&mut out, value);
            out
        });
        self.list(key, strings)
    }

    pub fn objects(self, key: &str, objects: impl IntoIterator<Item = Self>) -> Self {
        self.list(key, objects.into_iter().map(Self::whole))
    }

    pub fn object(mut self, key: &str, object: Self) -> Self {
        self.key(key);
        self.0.push_str(&object.whole());
        self
    }

    fn list(mut self, key: &str, items: impl Iterator<Item = String>) -> Self {
        self.key(key);
        let items: Vec<String> = items.collect();
        self.0.push('[');
        self.0.push_str(&items.join(","));
        self.0.push(']');
        self
    }

    fn whole(self) -> String {
        self.0 + "}"
    }

    /// The line.
    pub fn line(self) -> String {
        self.whole() + "\n"
    }
}

/// Text between quotes. What would move the cursor or turn the reading direction of a terminal is escaped too.
pub fn put_string(out: &mut String, text: &str) {
    out.push('"');
    for character in text.chars() {
        match character {
            '"' => out.push_str("\\\""),
            '\\' => out.push_str("\\\\"),
            _ if is_plain(character) => out.push(character),
            _ => {
                for unit in character.encode_utf16(&mut [0; 2]) {
                    // Writing to a string cannot fail.
                    let _ = write!(out, "\\u{unit:04x}");
                }
            }
        }
    }
    out.push('"');
}

#[cfg(test)]
mod tests {
    use std::ffi::OsStr;

    use super::*;

    #[test]
    fn objects_are_escaped() {
        let object = Object::new()
            .text("a\"", "\n\\\u{e9}\u{202e}\u{7f}")
            .number("n", 7)
            .long("v", i64::MIN);
        let texts = ["x".to_string(), "y".to_string()];
        let object = object.texts("t", &texts).texts("e", &[]);
        assert_eq!(
            object.objects("o", [Object::new().number("g", 1)]).line(),
            "{\"a\\\"\":\"\\u000a\\\\\u{e9}\\u202e\\u007f\",\"n\":7,\"v\":\"-9223372036854775808\",\
             \"t\":[\"x\",\"y\"],\"e\":[],\"o\":[{\"g\":1}]}\n"
        );
    }

    #[test]
    fn names_are_escaped_once() {
        let object = |name: &[u8]| {
            let path = Path::new(OsStr::from_bytes(name));
            Object::new().file("file", path).line()
        };
        assert_eq!(object(b"a\nb\\"), "{\"file\":\"a\\u000ab\\\\\"}\n");
        assert_eq!(
            object(b"a\xFF"),
            "{\"file\":\"a\u{fffd}\",\"file_hex\":\"61ff\"}\n"
        );
    }
}
