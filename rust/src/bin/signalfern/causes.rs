//! Why a text is no list of pairs or ids: the usual causes, named.

use crate::failure::TEXT;
use crate::header::Header;
use crate::words::Wrong;

/// A refusal's number and name, and a sentence.
type Explained = ((u64, &'static str), String);

/// A file of another kind: what it is, and what to do with it.
#[derive(Clone, Copy, Debug, PartialEq, Eq)]
pub struct Stranger {
    pub what: &'static str,
    pub advice: &'static str,
}

/// Says what is wrong with a line and, where that can be guessed, what the cause is. `head` are the
/// first bytes of the text, and `before` pairs or ids were read from it already.
pub fn explain(head: &[u8], line: &[u8], before: usize, wrong: Wrong) -> Explained {
    if before == 0 {
        if let Some(Stranger { what, advice }) = other_kind(head) {
            return (TEXT, format!("{what}: {advice}"));
        }
        if is_column(head) {
            let what = "this is a column already: `signalfern read` prints its pairs";
            return (TEXT, what.to_string());
        }
    }
    let (refusal, mut sentence) = wrong.parts();
    let returns = ends_in_returns(head, line).map(str::to_string);
    if let Some(hint) = returns.or_else(|| hint(line, before)) {
        sentence.push_str("; ");
        sentence.push_str(&hint);
    }
    (refusal, sentence)
}

const UNPACK: &str = "unpack it first";
const AS_UTF_8: &str = "save it as UTF-8";

/// What a file is whose first bytes are these, if it is known and no plain text.
pub fn other_kind(start: &[u8]) -> Option<Stranger> {
    const KINDS: [(&[u8], &str, &str); 7] = [
        (b"\xFF\xFE", "this is UTF-16 text", AS_UTF_8),
        (b"\xFE\xFF", "this is UTF-16 text", AS_UTF_8),
        (b"\x1F\x8B", "this is a gzip file", UNPACK),
        (b"PK\x03\x04", "this is a zip file", UNPACK),
        (b"\x28\xB5\x2F\xFD", "this is a zstd file", UNPACK),
        (b"\xFD7zXZ", "this is an xz file", UNPACK),
        (b"BZh", "this is a bzip2 file", UNPACK),
    ];
    let known = KINDS.iter().find(|(magic, ..)| start.starts_with(magic));
    if let Some(&(_, what, advice)) = known {
        return Some(Stranger { what, advice });
    }
    let each_second = |from, is: fn(&u8) -> bool| start.iter().skip(from).step_by(2).all(is);
    let utf_16 = |zeros, others| {
        let is_text = |byte: &u8| byte.is_ascii_graphic() || byte.is_ascii_whitespace();
        each_second(zeros, |&byte| byte == 0) && each_second(others, is_text)
    };
    (start.len() >= 4 && (utf_16(0, 1) || utf_16(1, 0))).then_some(Stranger {
        what: "this is UTF-16 text",
        advice: AS_UTF_8,
    })
}

/// Whether a text starts with the header of a column.
fn is_column(start: &[u8]) -> bool {
    let is_one = |header: Header| header.packing().is_some() && header.broken_rule().is_none();
    Header::parse(start).is_ok_and(is_one)
}

/// Lines that end in a return alone, as some programs for spreadsheets write them.
fn ends_in_returns(head: &[u8], line: &[u8]) -> Option<&'static str> {
    let text = if line.is_empty() { head } else { line };
    let inner = text.strip_suffix(b"\r").unwrap_or(text);
    let is_so = inner.contains(&b'\r') && !text.contains(&b'\n') && !head.contains(&b'\n');
    is_so.then_some("lines end in a return (CR) alone: change them to line feeds: `tr '\\r' '\\n'`")
}

/// Signs that look like a minus sign, and spaces that are not plain.
const MINUS: &[char] = &[
    '\u{2212}', '\u{2013}', '\u{2010}', '\u{2011}', '\u{FE63}', '\u{FF0D}',
];
const SPACES: &[char] = &['\u{A0}', '\u{202F}', '\u{2007}', '\u{2009}', '\u{3000}'];

/// A cause that shows in one line.
fn hint(line: &[u8], before: usize) -> Option<String> {
    let Ok(text) = std::str::from_utf8(line) else {
        return Some("this is no UTF-8 text".to_string());
    };
    let named = |signs: &[char]| {
        text.chars()
            .find(|sign| signs.contains(sign))
            .map(u32::from)
    };
    if let Some(sign) = named(MINUS) {
        return Some(format!(
            "there is the sign U+{sign:04X} in it where the plain minus sign, -, should stand"
        ));
    }
    if let Some(sign) = named(SPACES) {
        let kind = if sign == 0xA0 || sign == 0x202F {
            "no-break space"
        } else {
            "space"
        };
        return Some(format!(
            "there is the {kind} U+{sign:04X} in it: replace it by a plain space, or take it out of the number"
        ));
    }
    for (sign, hint) in [
        (
            ',',
            "set id and value apart by a space, not by a comma, or read it as a table: --format csv",
        ),
        (
            ';',
            "set id and value apart by a space, not by a semicolon, or read it as a table: --format csv",
        ),
        ('{', "if these are JSON lines, read them as such: --format json"),
        ('\0', "there are zero bytes in it: this is no text"),
    ] {
        if text.contains(sign) {
            return Some(hint.to_string());
        }
    }
    let is_header = before == 0 && !text.contains(|character: char| character.is_ascii_digit());
    is_header.then(|| "if this is a header line, take it out or put # before it".to_string())
}
