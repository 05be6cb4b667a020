//! JSON objects as they come, one a line: their members, whose values are texts or numbers. What else a member may
//! hold is passed over.

/// How deep lists and objects may lie in one another.
const DEEPEST: usize = 64;

/// The members of an object that hold a text or a number, the latter as it is written. An error says what is wrong.
pub fn members(line: &[u8]) -> Result<Vec<(String, String)>, String> {
    let Ok(text) = std::str::from_utf8(line) else {
        return Err("this is no UTF-8 text".to_string());
    };
    let mut reader = Reader { rest: text };
    let mut members = Vec::new();
    reader.token('{')?;
    if !reader.next_is('}') {
        loop {
            let name = reader.string()?;
            reader.token(':')?;
            if let Some(value) = reader.value(0)? {
                members.push((name, value));
            }
            if reader.next_is('}') {
                break;
            }
            reader.token(',')?;
        }
    }
    match reader.rest.trim_start().is_empty() {
        true => Ok(members),
        false => Err("something follows the object on its line".to_string()),
    }
}

struct Reader<'a> {
    rest: &'a str,
}

impl<'a> Reader<'a> {
    /// Passes over this sign, if it is the next.
    fn next_is(&mut self, sign: char) -> bool {
        let rest = self.rest.trim_start();
        match rest.strip_prefix(sign) {
            Some(rest) => {
                self.rest = rest;
                true
            }
            None => false,
        }
    }

    fn token(&mut self, sign: char) -> Result<(), String> {
        match self.next_is(sign) {
            true => Ok(()),
            false => Err(format!("no JSON object: `{sign}` is missing")),
        }
    }

    /// A value; its text, if it is a string or a number.
    fn value(&mut self, depth: usize) -> Result<Option<String>, String> {
        let rest = self.rest.trim_start();
        match rest.chars().next() {
            Some('"') => self.string().map(Some),
            Some('{') => self.nested('{', '}', depth),
            Some('[') => self.nested('[', ']', depth),
            _ => {
                let end = rest
                    .find([',', '}', ']', ' ', '\t', '\r'])
                    .unwrap_or(rest.len());
                let (word, after) = rest.split_at(end);
                self.rest = after;
                let is_number = word.starts_with(|sign: char| sign == '-' || sign.is_ascii_digit());
                match word {
                    "true" | "false" | "null" => Ok(None),
                    _ if is_number => Ok(Some(word.to_string())),
                    _ => Err("no JSON object: a member has no value".to_string()),
                }
            }
        }
    }

    /// A list or an object within, which is passed over.
    fn nested(&mut self, open: char, close: char, depth: usize) -> Result<Option<String>, String> {
        if depth == DEEPEST {
            return Err("lists and objects lie too deep in one another".to_string());
        }
        self.token(open)?;
        if self.next_is(close) {
            return Ok(None);
        }
        loop {
            if open == '{' {
                self.string()?;
                self.token(':')?;
            }
            self.value(depth + 1)?;
            if self.next_is(close) {
                return Ok(None);
            }
            self.token(',')?;
        }
    }

    fn string(&mut self) -> Result<String, String> {
        self.token('"')?;
        let mut out = Vec::new();
        let mut signs = self.rest.char_indices();
        let cut = || "no JSON object: a string is not closed".to_string();
        loop {
            let (at, sign) = signs.next().ok_or_else(cut)?;
            match sign {
                '"' => {
                    self.rest = &self.rest[at + 1..];
                    return String::from_utf16(&out)
                        .map_err(|_| "a string holds half a character".to_string());
                }
                '\\' => {
                    let (at, escape) = signs.next().ok_or_else(cut)?;
                    let plain = match escape {
                        '"' | '\\' | '/' => escape,
                        'b' => '\u{8}',
                        'f' => '\u{c}',
                        'n' => '\n',
                        'r' => '\r',
                        't' => '\t',
                        'u' => {
                            let digits = self.rest.get(at + 1..at + 5).ok_or_else(cut)?;
                            let unit = u16::from_str_radix(digits, 16);
                            out.push(unit.map_err(|_| "a string has a bad escape".to_string())?);
                            signs.nth(3);
                            continue;
                        }
                        _ => return Err("a string has a bad escape".to_string()),
                    };
                    out.extend(plain.encode_utf16(&mut [0; 2]).iter());
                }
                _ => out.extend(sign.encode_utf16(&mut [0; 2]).iter()),
            }
        }
    }
}

#[cfg(test)]
mod tests {
    use super::*;

    #[test]
    fn objects() {
        for (line, expected) in [
            ("{}", &[][..]),
            (
                "{\"id\":7,\"value\":\"-9223372036854775808\"}",
                &[("id", "7"), ("value", "-9223372036854775808")],
            ),
            (
                " { \"a\" : 1 , \"b\" : [1,{\"c\":[]}], \"d\": null, \"e\":\"x\\u00e9\\n\" } \r",
                &[("a", "1"), ("e", "x\u{e9}\n")],
            ),
            ("{\"\\ud83d\\ude00\":1.5e3}", &[("\u{1F600}", "1.5e3")]),
        ] {
            let expected: Vec<(String, String)> = (expected.iter())
                .map(|(name, value)| (name.to_string(), value.to_string()))
                .collect();
            assert_eq!(members(line.as_bytes()), Ok(expected), "{line}");
        }
        for line in [
            "",
            "7",
            "[]",
            "{",
            "{\"a\"}",
            "{\"a\":}",
            "{\"a\":1",
            "{\"a\":1,}",
            "{\"a\":1} x",
            "{\"a\":\"x}",
            "{\"a\":\"\\x\"}",
            "{\"a\":\"\\ud800\"}",
            "{\"a\":yes}",
            "{a:1}",
            "{\"a\":\"\\u12\"}",
        ] {
            assert!(members(line.as_bytes()).is_err(), "{line}");
        }
        let deep = format!("{{\"a\":{}{}}}", "[".repeat(100), "]".repeat(100));
        assert!(members(deep.as_bytes()).is_err());
    }
}
