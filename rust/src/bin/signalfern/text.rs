//! Words of messages: names and foreign text made safe to print, and counts.

use std::fmt::Write;
use std::os::unix::ffi::OsStrExt;
use std::path::Path;

/// Characters of foreign text that a message shows.
const SHOWN: usize = 40;

/// What messages call a file.
pub fn named(path: &Path) -> String {
    if is_standard(path) {
        return "standard input".to_string();
    }
    escaped(path.as_os_str().as_bytes(), usize::MAX)
}

/// A file's name as one would type it in a shell, where it is taken for no option.
pub fn typed(path: &Path) -> String {
    let name = path.as_os_str().as_bytes();
    match name.starts_with(b"-") && !is_standard(path) {
        true => typed_word(&[b"./", name].concat()),
        false => typed_word(name),
    }
}

/// A word as one would type it in a shell.
pub fn typed_word(word: &[u8]) -> String {
    let is_plain_byte = |byte: &u8| byte.is_ascii_alphanumeric() || b"_./,:+@%=-".contains(byte);
    match std::str::from_utf8(word) {
        Ok(text) if !word.is_empty() && word.iter().all(is_plain_byte) => text.to_string(),
        Ok(text) if text.chars().all(is_plain) => format!("'{}'", text.replace('\'', "'\\''")),
        _ => {
            let quoted = |&byte: &u8| match byte {
                b'\'' | b'\\' => format!("\\{}", char::from(byte)),
                b' '..=b'~' => char::from(byte).to_string(),
                _ => format!("\\x{byte:02X}"),
            };
            format!("$'{}'", word.iter().map(quoted).collect::<String>())
        }
    }
}

/// Whether a path stands for a standard stream.
pub fn is_standard(path: &Path) -> bool {
    path.as_os_str() == "-"
}

/// Foreign text between backticks, escaped and cut.
pub fn quoted(word: impl AsRef<[u8]>) -> String {
    format!("`{}`", cut(word.as_ref()))
}

/// Foreign text, escaped and cut.
pub fn cut(word: &[u8]) -> String {
    escaped(word, SHOWN)
}

/// Bytes as printable text: what would move the cursor, change the terminal or turn the reading
/// direction is escaped, and so are bytes that are no UTF-8. Cut after `most` characters.
pub fn escaped(bytes: &[u8], most: usize) -> String {
    let mut out = String::new();
    let mut left = most;
    for chunk in bytes.utf8_chunks() {
        for character in chunk.valid().chars() {
            if left == 0 {
                return out + "...";
            }
            left -= 1;
            if is_plain(character) {
                out.push(character);
            } else {
                out.extend(character.escape_default());
            }
        }
        for byte in chunk.invalid() {
            if left == 0 {
                return out + "...";
            }
            left -= 1;
            // Writing to a string cannot fail.
            let _ = write!(out, "\\x{byte:02X}");
        }
    }
    out
}

/// Whether a character is shown as it is and moves nothing.
pub fn is_plain(character: char) -> bool {
    let turns = matches!(character, '\u{200B}'..='\u{200F}' | '\u{2028}'..='\u{202E}'
        | '\u{2060}'..='\u{206F}' | '\u{FEFF}');
    !character.is_control() && !turns
}

/// A count with its noun.
pub fn counted(count: u64, noun: &str) -> String {
    format!("{count} {noun}{}", if count == 1 { "" } else { "s" })
}

/// A place in a file.
pub fn byte_at(place: usize) -> String {
    format!("byte {place} (0x{place:X})")
}

/// Bytes as hexadecimal digits.
pub fn hex(bytes: &[u8]) -> String {
    bytes.iter().map(|byte| format!("{byte:02x}")).collect()
}

/// Breaks a paragraph into lines of at most `width` characters; a word alone may be longer.
pub fn wrapped(text: &str, width: usize) -> Vec<String> {
    let mut lines: Vec<String> = Vec::new();
    for word in text.split(' ') {
        match lines.last_mut() {
            Some(line) if line.chars().count() + 1 + word.chars().count() <= width => {
                line.push(' ');
                line.push_str(word);
            }
            _ => lines.push(word.to_string()),
        }
    }
    lines
}

#[cfg(test)]
mod tests {
    use super::*;

    #[test]
    fn foreign_text_is_made_safe() {
        assert_eq!(quoted("7\u{1b}[2J\r\n"), "`7\\u{1b}[2J\\r\\n`");
        assert_eq!(quoted(b"a\xFFb"), "`a\\xFFb`");
        assert_eq!(quoted("\u{202e}12"), "`\\u{202e}12`");
        assert_eq!(quoted("\u{e9}"), "`\u{e9}`");
        assert_eq!(quoted("x".repeat(41)), format!("`{}...`", "x".repeat(40)));
        assert_eq!(quoted("x".repeat(40)), format!("`{}`", "x".repeat(40)));
        assert_eq!(named(Path::new("-")), "standard input");
        assert_eq!(named(Path::new("a\nb")), "a\\nb");
    }

    #[test]
    fn names_as_they_are_typed() {
        for (name, typed_as) in [
            ("a/b.column", "a/b.column"),
            ("-", "-"),
            ("-x", "./-x"),
            ("two words", "'two words'"),
            ("it's", "'it'\\''s'"),
            ("-a b", "'./-a b'"),
            ("\u{e9}", "'\u{e9}'"),
            ("a\nb'", "$'a\\x0Ab\\''"),
            ("", "''"),
        ] {
            assert_eq!(typed(Path::new(name)), typed_as);
        }
    }

    #[test]
    fn paragraphs_are_broken_at_spaces() {
        assert_eq!(wrapped("one two three", 7), ["one two", "three"]);
        assert_eq!(wrapped("longer than", 3), ["longer", "than"]);
    }
}
