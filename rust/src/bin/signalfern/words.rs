//! Lines of a list of pairs, and the words in them: ids and values.

use signalfern::{Refusal, MAX_ID};

use crate::failure::TEXT;
use crate::lines::LONGEST;
use crate::text::quoted;

/// A word that is not what should stand there.
#[derive(Debug, PartialEq, Eq)]
pub enum Wrong {
    /// A whole number above all ids.
    TooGreat(String),
    Text(String),
}

/// A line of digits, a space or tab, maybe a minus sign, digits, maybe a return, and a line feed: id,
/// value, and bytes. Numbers of more digits than surely fit are left to the general way.
pub fn plain_line(text: &[u8]) -> Option<(u32, i64, usize)> {
    let (id, mut len) = digits(text, 9)?;
    if !matches!(text.get(len)?, b' ' | b'\t') {
        return None;
    }
    len += 1;
    let is_negative = *text.get(len)? == b'-';
    len += usize::from(is_negative);
    let (value, digits) = digits(&text[len..], 18)?;
    len += digits;
    len += usize::from(text.get(len) == Some(&b'\r'));
    let value = if is_negative { -value } else { value };
    (text.get(len) == Some(&b'\n')).then_some((id as u32, value, len + 1))
}

/// The number at the front, and how many digits it has: at least one, at most `most`.
fn digits(text: &[u8], most: usize) -> Option<(i64, usize)> {
    let mut number = 0;
    for (len, byte) in text.iter().enumerate() {
        if !byte.is_ascii_digit() {
            return (len > 0).then_some((number, len));
        }
        if len == most {
            return None;
        }
        number = 10 * number + i64::from(byte - b'0');
    }
    None
}

/// The pair of a line, or none if it is empty or a remark.
pub fn parse_line(line: &[u8]) -> Result<Option<(u32, i64)>, Wrong> {
    let mut words = line
        .split(u8::is_ascii_whitespace)
        .filter(|word| !word.is_empty());
    let Some(id) = words.next().filter(|word| !word.starts_with(b"#")) else {
        return Ok(None);
    };
    let Some(value) = words.next() else {
        let id = quoted(id);
        return Err(Wrong::Text(format!(
            "{id} has no value: a line is `ID VALUE`"
        )));
    };
    if let Some(more) = words.next() {
        let more = quoted(more);
        return Err(Wrong::Text(format!(
            "{more} is one word too many: a line is `ID VALUE`"
        )));
    }
    Ok(Some((parse_id(id)?, parse_value(value)?)))
}

fn parse<T: std::str::FromStr>(word: &[u8]) -> Option<T> {
    std::str::from_utf8(word).ok()?.parse().ok()
}

/// An id as it stands in a text. One above the limit but within 32 bits is left to the library.
pub fn parse_id(word: &[u8]) -> Result<u32, Wrong> {
    parse(word).ok_or_else(|| {
        let quoted = quoted(word);
        if word.iter().all(u8::is_ascii_digit) && !word.is_empty() {
            return Wrong::TooGreat(format!(
                "{quoted} is no id: it is above the greatest allowed, {MAX_ID}"
            ));
        }
        Wrong::Text(format!(
            "{quoted} is no id: a whole number from 0 to {MAX_ID}"
        ))
    })
}

/// An id that is asked for. A number of more than 32 bits is above the limit as the greatest of them is.
pub fn parse_asked(word: &[u8]) -> Result<u32, Wrong> {
    match parse_id(word) {
        Err(Wrong::TooGreat(_)) => Ok(u32::MAX),
        parsed => parsed,
    }
}

/// A value as it stands in a text.
pub fn parse_value(word: &[u8]) -> Result<i64, Wrong> {
    parse(word).ok_or_else(|| {
        let (word, least, most) = (quoted(word), i64::MIN, i64::MAX);
        Wrong::Text(format!(
            "{word} is no value: a whole number from {least} to {most}"
        ))
    })
}

impl Wrong {
    pub fn too_long() -> Self {
        Self::Text(format!("it has more than {LONGEST} bytes"))
    }

    /// The refusal's number and name, and the sentence.
    pub fn parts(self) -> ((u64, &'static str), String) {
        match self {
            Self::TooGreat(sentence) => {
                let range = Refusal::Range { index: 0 };
                ((range.number(), range.name()), sentence)
            }
            Self::Text(sentence) => (TEXT, sentence),
        }
    }
}

#[cfg(test)]
mod tests {
    use super::*;

    #[test]
    fn plain_lines_are_those_of_the_general_way() {
        for text in [
            "0 0\n",
            "7 -135\n",
            "999999999 999999999999999999\n",
            "12 -999999999999999999\n",
            "12\t-7\r\n",
        ] {
            let (id, value, len) = plain_line(text.as_bytes()).unwrap();
            let line = text.trim_end().as_bytes();
            assert_eq!(parse_line(line), Ok(Some((id, value))));
            assert_eq!(len, text.len());
        }
        for text in [
            "",
            "1",
            "1 ",
            "1 2",
            "1  2\n",
            "1 -\n",
            "-1 2\n",
            "1\r2\n",
            "1 2\r",
            "1 2\r\r\n",
            "x 1\n",
            "1 x\n",
            "1234567890 1\n",
            "1 1234567890123456789\n",
            "1 +2\n",
            "1 2 \n",
        ] {
            assert_eq!(plain_line(text.as_bytes()), None, "{text}");
        }
    }

    #[test]
    fn lines_and_remarks() {
        assert_eq!(parse_line(b"  2\t140 \r"), Ok(Some((2, 140))));
        assert_eq!(parse_line(b"+2 +140"), Ok(Some((2, 140))));
        assert_eq!(parse_line(b" \r"), Ok(None));
        assert_eq!(parse_line(b"# ids"), Ok(None));
        assert_eq!(parse_line(b"4294967295 1"), Ok(Some((u32::MAX, 1))));
        assert!(matches!(
            parse_line(b"4294967296 1"),
            Err(Wrong::TooGreat(_))
        ));
    }
}
