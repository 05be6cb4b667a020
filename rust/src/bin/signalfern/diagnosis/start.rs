//! Files whose first bytes are no header of a column.

use super::{Diagnosis, COPY_AGAIN};
use crate::causes::other_kind;
use crate::header::{Header, NAMES};
use crate::packing::Packing;
use crate::text::quoted;

/// HEADER: which rule, with the numbers.
pub fn broken_rule(header: &Header) -> Diagnosis {
    let Some((index, sentence)) = header.broken_rule() else {
        return Diagnosis::new(Vec::new(), COPY_AGAIN);
    };
    let (name, at) = (NAMES[index], header.starts[index]);
    let line = format!("the header has {sentence}: see {name} at byte {at}");
    Diagnosis::new(vec![line], COPY_AGAIN)
}

/// EDITION: what else the file may be.
pub fn no_edition(bytes: &[u8]) -> Diagnosis {
    match stranger(bytes) {
        Some(diagnosis) => diagnosis,
        None => {
            let start = &bytes[..bytes.len().min(8)];
            let bytes: Vec<String> = start.iter().map(|byte| format!("{byte:02X}")).collect();
            let line = format!(
                "it starts with the bytes {}, and a column starts with 01, 02, 03 or 04",
                bytes.join(" ")
            );
            Diagnosis::new(vec![line], "see whether this is the right file")
        }
    }
}

/// A file of another kind that is often taken for a column.
pub fn stranger(bytes: &[u8]) -> Option<Diagnosis> {
    if bytes
        .first()
        .is_some_and(|&it| Packing::of(it.into()).is_some())
    {
        return None;
    }
    let line = bytes.split(|&byte| byte == b'\n').next()?;
    if line.len() > 64 && line[..64].iter().all(u8::is_ascii_hexdigit) {
        let line = "this looks like a file of digests (.sha256), not like the column itself";
        return Some(Diagnosis::new(
            vec![line.to_string()],
            "name the column: the file of digests beside it is then used",
        ));
    }
    Diagnosis::of_stranger(bytes, "pairs", "write FILE -o COLUMN")
}

impl Diagnosis {
    /// Of a file that is packed or a text, which may be a list of such things that a command makes a file of.
    pub fn of_stranger(bytes: &[u8], things: &str, command: &str) -> Option<Self> {
        if let Some(stranger) = other_kind(bytes) {
            let advice = format!(
                "{}, and see whether it is then the right file",
                stranger.advice
            );
            return Some(Self::new(vec![stranger.what.to_string()], advice));
        }
        let unmarked = bytes.strip_prefix(b"\xEF\xBB\xBF");
        let text = unmarked.unwrap_or(bytes);
        let is_sign = |byte: &u8| byte.is_ascii_graphic() || byte.is_ascii_whitespace();
        if text.is_empty() || !text.iter().all(is_sign) {
            return None;
        }
        let line = text.split(|&byte| byte == b'\n' || byte == b'\r').next()?;
        let mark = unmarked.map_or("", |_| ", after a byte order mark,");
        let line = quoted(line.trim_ascii_end());
        Some(Self::new(
            vec![format!("this is text; its first line{mark} is {line}")],
            format!("if it is a list of {things}, make one of it: signalfern {command}"),
        ))
    }
}
