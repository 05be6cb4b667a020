//! `FILE.sha256` beside a file: its digest, in the forms of sha256sum.

use std::ffi::OsString;
use std::io::Read;
use std::os::unix::ffi::OsStrExt;
use std::path::{Path, PathBuf};
use std::{fs, io};

use crate::failure::Failure;
use crate::output::Output;
use crate::sha256::Digest;
use crate::system::{NO_FOLDER, TOO_LONG};
use crate::text::{hex, is_standard, named};

/// More bytes than this are no sidecar of ours.
const MOST: u64 = 1 << 20;

/// Where the sidecar of a file stands.
pub fn path_of(path: &Path) -> PathBuf {
    let mut name = OsString::from(path);
    name.push(".sha256");
    PathBuf::from(name)
}

/// Whether no sidecar of a file can be, since its name would be too long.
pub fn is_too_long(path: &Path) -> bool {
    let about = fs::symlink_metadata(path_of(path));
    about.is_err_and(|error| error.raw_os_error() == Some(TOO_LONG))
}

/// The digest that hexadecimal digits give.
pub fn parse_digest(word: &[u8]) -> Option<Digest> {
    let mut digest = [0; 32];
    if word.len() != 64 {
        return None;
    }
    for (byte, pair) in digest.iter_mut().zip(word.chunks_exact(2)) {
        let high = char::from(pair[0]).to_digit(16)?;
        let low = char::from(pair[1]).to_digit(16)?;
        *byte = (16 * high + low) as u8;
    }
    Some(digest)
}

/// A file's name without its folder, as sha256sum escapes it, and whether it had to be.
fn escaped_name(path: &Path) -> (bool, Vec<u8>) {
    let name = path.file_name().unwrap_or_default().as_bytes();
    let mut out = Vec::new();
    for &byte in name {
        match byte {
            b'\\' => out.extend(b"\\\\"),
            b'\n' => out.extend(b"\\n"),
            b'\r' => out.extend(b"\\r"),
            _ => out.push(byte),
        }
    }
    (out != name, out)
}

/// Writes a sidecar: `sha256sum -c` in the file's folder takes it.
pub fn write(output: Output, path: &Path, digest: &Digest) -> Result<(), Failure> {
    let (is_escaped, name) = escaped_name(path);
    output.fill(|out| {
        let mark = if is_escaped { "\\" } else { "" };
        write!(out, "{mark}{}  ", hex(digest))?;
        out.write_all(&name)?;
        out.write_all(b"\n")
    })
}

/// The digests that the sidecar of a file tells of it: none if there is no sidecar, and usually one.
pub fn read(path: &Path) -> Result<Vec<Digest>, Failure> {
    let Some(text) = text_beside(path)? else {
        return Ok(Vec::new());
    };
    let told = find(&text, path);
    if told.is_empty() {
        return Err(Failure::Trouble(format!(
            "{} has no line `DIGEST  {}` as sha256sum writes it",
            named(&path_of(path)),
            named(Path::new(path.file_name().unwrap_or_default()))
        )));
    }
    Ok(told)
}

/// Whether a sidecar holds nothing but the digest of its file, so that nothing is lost with it.
pub fn is_of_one(path: &Path) -> bool {
    let lines = |text: &[u8]| text.trim_ascii_end().split(|&byte| byte == b'\n').count();
    let text = text_beside(path).ok().flatten();
    text.is_some_and(|text| find(&text, path).len() == 1 && lines(&text) == 1)
}

/// The text of the sidecar of a file, if there is one. What is no plain file, as a pipe that would be waited for,
/// is not opened.
fn text_beside(path: &Path) -> Result<Option<Vec<u8>>, Failure> {
    if is_standard(path) {
        return Ok(None);
    }
    let sidecar = path_of(path);
    let mut text = Vec::new();
    let read = |text: &mut Vec<u8>| match fs::metadata(&sidecar)?.is_file() {
        false => Err(io::Error::other("a sidecar is to be a plain file")),
        true => fs::File::open(&sidecar)?.take(MOST).read_to_end(text),
    };
    match read(&mut text) {
        Ok(_) => Ok(Some(text)),
        Err(error) if error.kind() == io::ErrorKind::NotFound => Ok(None),
        // The file itself may be in no folder, as `/dev/stdin/` or a file's name taken for a folder.
        Err(error) if error.raw_os_error() == Some(NO_FOLDER) => Ok(None),
        Err(error) if error.raw_os_error() == Some(TOO_LONG) => Ok(None),
        Err(error) => Err(Failure::file("read", &sidecar, &error)),
    }
}

/// The digests in the lines for this file. A folder before the name does not matter.
fn find(text: &[u8], path: &Path) -> Vec<Digest> {
    let (_, wanted) = escaped_name(path);
    let lines = text.split(|&byte| byte == b'\n');
    let told = lines.filter_map(|line| {
        let line = line.strip_suffix(b"\r").unwrap_or(line);
        let line = line.strip_prefix(b"\\").unwrap_or(line);
        let (digest, name) = tagged(line).or_else(|| plain(line))?;
        let last = name.rsplit(|&byte| byte == b'/').next()?;
        (last == wanted).then_some(digest)
    });
    told.collect()
}

/// A line `DIGEST  NAME`: two spaces, or a space and a star for a binary file.
fn plain(line: &[u8]) -> Option<(Digest, &[u8])> {
    let digest = parse_digest(line.get(..64)?)?;
    let name = line.get(66..).filter(|_| line[64] == b' ')?;
    Some((digest, name))
}

/// A line `SHA256 (NAME) = DIGEST`, as `sha256sum --tag` writes it.
fn tagged(line: &[u8]) -> Option<(Digest, &[u8])> {
    let rest = line.strip_prefix(b"SHA256 (")?;
    let (front, digits) = rest.split_at_checked(rest.len().checked_sub(64)?)?;
    Some((parse_digest(digits)?, front.strip_suffix(b") = ")?))
}

#[cfg(test)]
mod tests {
    use super::*;

    #[test]
    fn lines_of_sha256sum() {
        let digits = "0123456789abcdef".repeat(4);
        let digest = parse_digest(digits.as_bytes()).unwrap();
        assert_eq!(hex(&digest), digits);
        let path = Path::new("folder/a\\b");
        for line in [
            format!("\\{digits}  a\\\\b\n"),
            format!("x\n\\{digits} *other/a\\\\b"),
            format!("\\{}  a\\\\b\r\n", digits.to_uppercase()),
            format!("\\SHA256 (a\\\\b) = {digits}\n"),
        ] {
            assert_eq!(find(line.as_bytes(), path), [digest], "{line}");
        }
        for line in [
            "",
            &digits,
            &format!("{digits}  b"),
            &format!("{digits}1 a\\\\b"),
            &format!("SHA256 (b) = {digits}"),
            &format!("SHA256 (a\\\\b) {digits}"),
        ] {
            assert!(find(line.as_bytes(), path).is_empty(), "{line}");
        }
    }
}
