//! LENGTH: the bytes told and the bytes there, and how they came to differ.

use super::{Diagnosis, COPY_AGAIN};
use crate::blocks::END;
use crate::header::Header;
use crate::text::counted;

/// Larger files are told by their lengths alone.
pub const MOST: u64 = 1 << 30;
/// How far the end block is looked for from its place.
const NEAR: u128 = 1 << 20;

const MENDED: &str = "line endings were changed (LF to CR LF): changed back, it is a sound column";
const REPLACED: &str = "it was converted as if it were text: bytes were replaced by U+FFFD";
const STRIPPED: &str =
    "zero bytes were taken out of it, it seems, as programs do that take a file for text: \
                        there is none in it, and each column has some in its end block";
const BINARY: &str = "transfer the file again in binary mode, not as text";

/// Something that happened to a file, and what to do about it.
type Guess = (String, String);

/// How much of a file is worth reading to explain its length.
pub fn worth_reading(header: &Header) -> u64 {
    let twice = header.total().saturating_mul(2);
    u64::try_from(twice).unwrap_or(u64::MAX).min(MOST)
}

/// `len` is the length of the whole file, if it is known; `bytes` are its first ones, or all.
pub fn explain(header: &Header, bytes: &[u8], len: Option<u64>) -> Diagnosis {
    let told = header.total();
    let (id_bytes, value_bytes) = (header.id_bytes, header.value_bytes);
    let parts = format!(
        "the header tells of {told} bytes ({} of header, {id_bytes} of ids, {value_bytes} of values)",
        header.len()
    );
    let there = len.unwrap_or(bytes.len() as u64);
    let is_whole = len == Some(bytes.len() as u64);
    if u128::from(there) < told {
        let missing = told - u128::from(there);
        let line = format!("{parts}, and {there} are there: {missing} too few");
        let (guess, advice) = match (was_replaced(bytes), is_whole && was_stripped(bytes)) {
            (true, _) => (REPLACED.to_string(), BINARY.to_string()),
            (_, true) => (STRIPPED.to_string(), BINARY.to_string()),
            _ => too_short(header, bytes, missing, is_whole),
        };
        return Diagnosis::new(vec![line, guess], advice);
    }
    let extra = u128::from(there) - told;
    let at_least = if len.is_some() { "" } else { "at least " };
    let line = format!("{parts}, and {at_least}{there} are there: {at_least}{extra} too many");
    let (guess, advice) = too_long(bytes, told, is_whole);
    Diagnosis::new(vec![line, guess], advice)
}

fn too_short(header: &Header, bytes: &[u8], missing: u128, is_whole: bool) -> Guess {
    let end_told = header.len() as u128 + u128::from(header.id_bytes)
        - 8 * u128::from(header.jump_count)
        - END.len() as u128;
    let stands_at = |at: u128| {
        let at = usize::try_from(at).ok();
        let part = at.and_then(|at| bytes.get(at..at.checked_add(END.len())?));
        part == Some(&END[..])
    };
    let before = (1..=missing.min(NEAR).min(end_told)).find(|back| stands_at(end_told - back));
    let cut_off = (
        "it is cut off: its end is missing".to_string(),
        format!("copy the file again: it must have {} bytes", header.total()),
    );
    let Some(lost) = before.filter(|_| is_whole && !stands_at(end_told)) else {
        return cut_off;
    };
    let (alone, pairs) = line_ends(bytes);
    if pairs == 0 && alone as u128 >= missing {
        return (
            "line endings were changed, it seems: bytes are missing before its end, and no CR LF \
             is left in it"
                .to_string(),
            BINARY.to_string(),
        );
    }
    let lost = counted(lost as u64, "byte");
    let guess = format!("{lost} went missing within it, before the end block");
    (guess, COPY_AGAIN.to_string())
}

fn too_long(bytes: &[u8], told: u128, is_whole: bool) -> Guess {
    let Some(front) = usize::try_from(told)
        .ok()
        .and_then(|told| bytes.get(..told))
    else {
        return (
            "something was appended or put in".to_string(),
            COPY_AGAIN.to_string(),
        );
    };
    if signalfern::check(front).is_ok() {
        let what = match &bytes[front.len()..] {
            _ if !is_whole => "something was appended",
            b"\n" | b"\r\n" => "a line end was appended",
            rest if rest.iter().all(|&byte| byte == 0) => "zero bytes were appended",
            _ => "something was appended",
        };
        return (
            format!("{what}: the first {told} bytes are a sound column"),
            format!("copy the file again, or cut it: head -c {told} FILE > NEW"),
        );
    }
    let guess = converted(bytes).filter(|_| is_whole);
    match guess {
        Some(guess) => (guess.to_string(), BINARY.to_string()),
        None => (
            "bytes were put in, or it is damaged and something was appended".to_string(),
            COPY_AGAIN.to_string(),
        ),
    }
}

/// Whether a file that has grown went through a conversion of text.
fn converted(bytes: &[u8]) -> Option<&'static str> {
    if is_sound_without_returns(bytes) {
        return Some(MENDED);
    }
    if was_replaced(bytes) {
        return Some(REPLACED);
    }
    let (alone, pairs) = line_ends(bytes);
    if alone == 0 && pairs > 0 {
        return Some("line endings were changed (LF to CR LF), it seems: no LF stands alone in it");
    }
    None
}

/// Whether bytes that are no UTF-8 text were replaced, as programs do that take all files for text.
fn was_replaced(bytes: &[u8]) -> bool {
    let text = match std::str::from_utf8(bytes) {
        Ok(text) => text,
        // The first bytes of a file may end within a character.
        Err(error) if error.error_len().is_none() => {
            std::str::from_utf8(&bytes[..error.valid_up_to()]).unwrap_or_default()
        }
        Err(_) => return false,
    };
    text.contains(char::REPLACEMENT_CHARACTER)
}

/// Whether all zero bytes were taken out: none is there, but what is left of an end block.
fn was_stripped(bytes: &[u8]) -> bool {
    !bytes.contains(&0)
        && bytes
            .windows(4)
            .any(|part| part == [0xFF, 0x7F, 0xFF, 0xFF])
}

/// How many line feeds stand alone, and how many after a return.
fn line_ends(bytes: &[u8]) -> (usize, usize) {
    let feeds = bytes.iter().filter(|&&byte| byte == b'\n').count();
    let pairs = bytes.windows(2).filter(|pair| pair == b"\r\n").count();
    (feeds - pairs, pairs)
}

pub fn has_returns(bytes: &[u8]) -> bool {
    bytes.windows(2).any(|pair| pair == b"\r\n")
}

/// Whether changed line endings are all that is wrong.
fn is_sound_without_returns(bytes: &[u8]) -> bool {
    let mended = has_returns(bytes).then(|| without_returns(bytes)).flatten();
    mended.is_some_and(|mended| signalfern::check(&mended).is_ok())
}

/// What to say of a file whose header broke, if it went through a conversion of text.
pub fn converted_to_text(bytes: &[u8], is_whole: bool) -> Option<Diagnosis> {
    let what = match is_whole && is_sound_without_returns(bytes) {
        true => MENDED,
        false if was_replaced(bytes) => REPLACED,
        false if is_whole && was_stripped(bytes) => STRIPPED,
        false => return None,
    };
    Some(Diagnosis::new(vec![what.to_string()], BINARY))
}

/// The bytes with CR LF changed back to LF, if there is memory for them.
fn without_returns(bytes: &[u8]) -> Option<Vec<u8>> {
    let mut out = Vec::new();
    out.try_reserve_exact(bytes.len()).ok()?;
    for (at, &byte) in bytes.iter().enumerate() {
        if byte != b'\r' || bytes.get(at + 1) != Some(&b'\n') {
            out.push(byte);
        }
    }
    Some(out)
}
