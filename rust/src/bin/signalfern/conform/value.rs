//! JSON, as far as the vectors need it: read, written, compared. Numbers are whole and kept as their digits.

use std::fmt;

/// A JSON value. An object keeps the order of its keys.
#[derive(Clone, Debug, PartialEq, Eq)]
pub enum Json {
    Null,
    Bool(bool),
    Number(String),
    Text(String),
    List(Vec<Json>),
    Object(Vec<(String, Json)>),
}

impl Json {
    /// Reads one value that takes up the whole text.
    pub fn parse(text: &str) -> Result<Self, String> {
        let mut reader = Reader {
            bytes: text.as_bytes(),
            at: 0,
            deep: 0,
        };
        let value = reader.value()?;
        reader.space();
        match reader.at == reader.bytes.len() {
            true => Ok(value),
            false => Err(format!("something follows at byte {}", reader.at)),
        }
    }

    /// The value of a key of an object.
    pub fn get(&self, key: &str) -> Option<&Self> {
        let Self::Object(entries) = self else {
            return None;
        };
        entries.iter().find(|(name, _)| name == key).map(|it| &it.1)
    }

    /// A text.
    pub fn text(&self) -> Option<&str> {
        match self {
            Self::Text(text) => Some(text),
            _ => None,
        }
    }

    /// Whether two values say the same: the order of an object's keys does not matter, and a whole number may be
    /// a string of its digits.
    pub fn says(&self, other: &Self) -> bool {
        match (self, other) {
            (Self::Number(a) | Self::Text(a), Self::Number(b) | Self::Text(b)) => a == b,
            (Self::List(a), Self::List(b)) => {
                a.len() == b.len() && a.iter().zip(b).all(|(a, b)| a.says(b))
            }
            (Self::Object(a), Self::Object(b)) => {
                let has = |key: &str, value: &Self| other.get(key).is_some_and(|it| it.says(value));
                a.len() == b.len() && a.iter().all(|(key, value)| has(key, value))
            }
            _ => self == other,
        }
    }
}

/// One line, without spaces.
impl fmt::Display for Json {
    fn fmt(&self, f: &mut fmt::Formatter<'_>) -> fmt::Result {
        match self {
            Self::Null => f.write_str("null"),
            Self::Bool(value) => write!(f, "{value}"),
            Self::Number(digits) => f.write_str(digits),
            Self::Text(text) => write_text(f, text),
            Self::List(values) => {
                f.write_str("[")?;
                for (index, value) in values.iter().enumerate() {
                    write!(f, "{}{value}", if index > 0 { "," } else { "" })?;
                }
                f.write_str("]")
            }
            Self::Object(entries) => {
                f.write_str("{")?;
                for (index, (key, value)) in entries.iter().enumerate() {
                    f.write_str(if index > 0 { "," } else { "" })?;
                    write_text(f, key)?;
                    write!(f, ":{value}")?;
                }
                f.write_str("}")
            }
        }
    }
}

fn write_text(f: &mut fmt::Formatter<'_>, text: &str) -> fmt::Result {
    f.write_str("\"")?;
    for sign in text.chars() {
        match sign {
            '"' | '\\' => write!(f, "\\{sign}")?,
            '\u{0}'..='\u{1F}' => write!(f, "\\u{:04x}", u32::from(sign))?,
            _ => write!(f, "{sign}")?,
        }
    }
    f.write_str("\"")
}

/// Lists and objects may stand in each other so deep.
const DEEPEST: usize = 32;

struct Reader<'a> {
    bytes: &'a [u8],
    at: usize,
    deep: usize,
}

impl Reader<'_> {
    fn peek(&self) -> Option<u8> {
        self.bytes.get(self.at).copied()
    }

    fn space(&mut self) {
        while matches!(self.peek(), Some(b' ' | b'\t' | b'\r' | b'\n')) {
            self.at += 1;
        }
    }

    fn wrong<T>(&self, what: &str) -> Result<T, String> {
        Err(format!("{what} at byte {}", self.at))
    }

    fn take(&mut self, byte: u8) -> Result<(), String> {
        self.space();
        if self.peek() != Some(byte) {
            return self.wrong(&format!("no `{}`", char::from(byte)));
        }
        self.at += 1;
        Ok(())
    }

    /// Whether this byte stands next, and passes over it.
    fn skip(&mut self, byte: u8) -> bool {
        self.take(byte).is_ok()
    }

    fn word(&mut self, word: &str, value: Json) -> Result<Json, String> {
        if !self.bytes[self.at..].starts_with(word.as_bytes()) {
            return self.wrong("no value");
        }
        self.at += word.len();
        Ok(value)
    }

    fn value(&mut self) -> Result<Json, String> {
        self.space();
        match self.peek() {
            Some(b'{') => self.nested(Self::object),
            Some(b'[') => self.nested(Self::list),
            Some(b'"') => self.string().map(Json::Text),
            Some(b'-' | b'0'..=b'9') => self.number(),
            Some(b't') => self.word("true", Json::Bool(true)),
            Some(b'f') => self.word("false", Json::Bool(false)),
            _ => self.word("null", Json::Null),
        }
    }

    fn nested(&mut self, read: fn(&mut Self) -> Result<Json, String>) -> Result<Json, String> {
        if self.deep == DEEPEST {
            return self.wrong("too deep");
        }
        self.deep += 1;
        let value = read(self);
        self.deep -= 1;
        value
    }

    fn object(&mut self) -> Result<Json, String> {
        self.take(b'{')?;
        let mut entries = Vec::new();
        while !self.skip(b'}') {
            if !entries.is_empty() {
                self.take(b',')?;
                self.space();
            }
            let key = self.string()?;
            self.take(b':')?;
            entries.push((key, self.value()?));
        }
        Ok(Json::Object(entries))
    }

    fn list(&mut self) -> Result<Json, String> {
        self.take(b'[')?;
        let mut values = Vec::new();
        while !self.skip(b']') {
            if !values.is_empty() {
                self.take(b',')?;
            }
            values.push(self.value()?);
        }
        Ok(Json::List(values))
    }

    fn number(&mut self) -> Result<Json, String> {
        let start = self.at;
        self.at += usize::from(self.peek() == Some(b'-'));
        let digits = self.at;
        while matches!(self.peek(), Some(b'0'..=b'9')) {
            self.at += 1;
        }
        let plain = self.at > digits && (self.at == digits + 1 || self.bytes[digits] != b'0');
        if !plain || matches!(self.peek(), Some(b'.' | b'e' | b'E')) {
            return self.wrong("no whole number");
        }
        let text = String::from_utf8_lossy(&self.bytes[start..self.at]);
        Ok(Json::Number(text.into_owned()))
    }

    fn string(&mut self) -> Result<String, String> {
        self.take(b'"')?;
        let mut text = Vec::new();
        loop {
            let Some(byte) = self.peek() else {
                return self.wrong("a string without end");
            };
            self.at += 1;
            match byte {
                b'"' => break,
                b'\\' => {
                    let sign = self.escaped()?;
                    text.extend_from_slice(sign.encode_utf8(&mut [0; 4]).as_bytes());
                }
                _ => text.push(byte),
            }
        }
        String::from_utf8(text).or_else(|_| self.wrong("no UTF-8"))
    }

    /// What stands after a backslash. (A surrogate, of which the vectors have none, is no character by itself.)
    fn escaped(&mut self) -> Result<char, String> {
        let sign = self.peek();
        self.at += 1;
        let hex = |reader: &mut Self| {
            let digits = reader.bytes.get(reader.at..reader.at + 4)?;
            reader.at += 4;
            let code = u32::from_str_radix(std::str::from_utf8(digits).ok()?, 16).ok()?;
            char::from_u32(code)
        };
        let found = match sign {
            Some(b'b') => Some('\u{8}'),
            Some(b'f') => Some('\u{c}'),
            Some(b'n') => Some('\n'),
            Some(b'r') => Some('\r'),
            Some(b't') => Some('\t'),
            Some(b'u') => hex(self),
            Some(sign @ (b'"' | b'\\' | b'/')) => Some(char::from(sign)),
            _ => None,
        };
        found.map_or_else(|| self.wrong("no such escape"), Ok)
    }
}

#[cfg(test)]
mod tests {
    use super::Json;

    #[test]
    fn read_and_written() {
        let text =
            "{\"a\":[1,-20,\"x\\\"\\u000a\"],\"b\":{\"c\":null,\"d\":true},\"e\":[],\"f\":{}}";
        let value = Json::parse(&format!(" {} \n", text.replace(',', " , "))).unwrap();
        assert_eq!(value.to_string(), text);
        assert_eq!(value.get("b").and_then(|it| it.get("c")), Some(&Json::Null));
        for wrong in [
            "", "{", "[1", "01", "-", "1.5", "1e3", "\"", "{\"a\"}", "[1,]x", "nul", "1 2",
            "\"\\x\"",
        ] {
            assert!(Json::parse(wrong).is_err(), "{wrong}");
        }
        assert!(Json::parse(&"[".repeat(100)).is_err());
    }

    #[test]
    fn what_says_the_same() {
        let says = |a: &str, b: &str| Json::parse(a).unwrap().says(&Json::parse(b).unwrap());
        assert!(says("{\"a\":1,\"b\":[2]}", "{\"b\":[\"2\"],\"a\":1}"));
        for (a, b) in [
            ("{\"a\":1}", "{\"a\":1,\"b\":2}"),
            ("{\"a\":1,\"b\":2}", "{\"a\":1}"),
            ("[1,2]", "[2,1]"),
            ("1", "2"),
            ("null", "false"),
        ] {
            assert!(!says(a, b), "{a} {b}");
        }
    }
}
