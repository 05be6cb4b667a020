//! Which files an output may take the place of without `--force`: those that can be made again.

use std::fs::File;
use std::io::Read;
use std::path::Path;

use crate::column::judge_header;
use crate::header::{Header, LONGEST};
use crate::html;
use crate::set_blocks;
use crate::sidecar;

/// What an output replaces. An empty file, in which nothing is lost, is replaced by all.
#[derive(Clone, Copy)]
pub enum Replaces {
    Columns,
    Sets,
    /// The sidecar of this output alone.
    Sidecars,
    Reports,
    Nothing,
}

impl Replaces {
    /// Why a file of so many bytes is not replaced, if it is not.
    pub fn why_not(self, path: &Path, len: u64) -> Option<&'static str> {
        if len == 0 {
            return None;
        }
        let (is_one, why) = match self {
            Self::Columns => (is_column(path, len), "no column that signalfern wrote"),
            Self::Sets => (is_set(path, len), "no set that signalfern wrote"),
            Self::Sidecars => (is_sidecar(path), "more than the digest of this file"),
            Self::Reports => (is_report(path), "no report that signalfern wrote"),
            Self::Nothing => (false, "not empty"),
        };
        (!is_one).then_some(why)
    }
}

/// The first bytes of a file; none where it cannot be read.
fn start(path: &Path, most: u64) -> Vec<u8> {
    let mut bytes = Vec::new();
    let file = File::open(path);
    let _ = file.and_then(|file| file.take(most).read_to_end(&mut bytes));
    bytes
}

/// By its header and its length.
fn is_column(path: &Path, len: u64) -> bool {
    let bytes = start(path, LONGEST as u64);
    let is_known = !matches!(judge_header(&bytes), Err(refusal) if refusal.number() != 11);
    is_known && Header::parse(&bytes).is_ok_and(|header| header.total() == u128::from(len))
}

fn is_set(path: &Path, len: u64) -> bool {
    len <= set_blocks::LONGEST && signalfern::set_check(&start(path, len)).is_ok()
}

fn is_sidecar(path: &Path) -> bool {
    let file = path
        .as_os_str()
        .to_str()
        .and_then(|name| name.strip_suffix(".sha256"));
    file.is_some_and(|file| sidecar::is_of_one(Path::new(file)))
}

fn is_report(path: &Path) -> bool {
    start(path, html::MARK.len() as u64) == html::MARK.as_bytes()
}
