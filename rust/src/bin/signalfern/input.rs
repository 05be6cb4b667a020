//! Files that are read, and standard input.

use std::fs::{File, Metadata};
use std::io::{self, Read, Seek};
use std::os::fd::AsFd;
use std::os::unix::fs::MetadataExt;
use std::path::{Path, PathBuf};

use crate::failure::Failure;
use crate::system::Stream;
use crate::text::{is_standard, named};

/// A file opened for reading.
pub struct Input {
    pub path: PathBuf,
    file: File,
    about: Metadata,
}

impl Input {
    /// Opens a file, or standard input for `-`. Nothing is read yet.
    pub fn open(path: &Path) -> Result<Self, Failure> {
        let open = || -> io::Result<(File, Metadata)> {
            if is_standard_input(path) {
                Stream::Input.is_there()?;
            }
            let file = if is_standard(path) {
                File::from(io::stdin().as_fd().try_clone_to_owned()?)
            } else {
                File::open(path)?
            };
            let about = file.metadata()?;
            if about.is_dir() {
                return Err(io::Error::other("it is a folder"));
            }
            Ok((file, about))
        };
        let (file, about) = open().map_err(|error| Failure::file("read", path, &error))?;
        let path = path.to_path_buf();
        Ok(Self { path, file, about })
    }

    /// What messages call it.
    pub fn name(&self) -> String {
        named(&self.path)
    }

    /// Whether it is standard input, by whatever name.
    pub fn is_standard(&self) -> bool {
        is_standard_input(&self.path)
    }

    /// Whether it is a file on a disk, of which reading never waits.
    pub fn is_plain_file(&self) -> bool {
        self.about.is_file()
    }

    /// Goes back to the first byte.
    pub fn rewind(&mut self) -> Result<(), Failure> {
        (self.file.rewind()).map_err(|error| Failure::file("read", &self.path, &error))
    }

    /// The bytes that are left, where the system tells: for a file on a disk.
    pub fn left(&mut self) -> Option<u64> {
        // Files that the system makes up have length 0 and bytes all the same.
        if !self.about.is_file() || self.about.len() == 0 {
            return None;
        }
        let done = self.file.stream_position().ok()?;
        self.about.len().checked_sub(done)
    }

    /// Whether this is the same file on a disk.
    pub fn is(&self, other: &Metadata) -> bool {
        self.about.is_file() && same_file(&self.about, other)
    }

    /// Reads so many bytes more into a vector that has room for them; fewer at the end.
    pub fn read_more(&mut self, len: usize, into: &mut Vec<u8>) -> Result<usize, Failure> {
        let mut part = (&mut self.file).take(len as u64);
        part.read_to_end(into)
            .map_err(|error| Failure::file("read", &self.path, &error))
    }

    /// Reads some bytes; none means the end.
    pub fn read(&mut self, buffer: &mut [u8]) -> Result<usize, Failure> {
        loop {
            match self.file.read(buffer) {
                Err(error) if error.kind() == io::ErrorKind::Interrupted => {}
                Err(error) => return Err(Failure::file("read", &self.path, &error)),
                Ok(len) => return Ok(len),
            }
        }
    }
}

/// Whether a path is standard input, by whatever name.
fn is_standard_input(path: &Path) -> bool {
    let names = ["/dev/stdin", "/dev/fd/0", "/proc/self/fd/0"];
    is_standard(path) || names.iter().any(|name| path == Path::new(name))
}

pub fn same_file(one: &Metadata, other: &Metadata) -> bool {
    (one.dev(), one.ino()) == (other.dev(), other.ino())
}
