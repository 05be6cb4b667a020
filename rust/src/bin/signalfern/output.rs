//! Where results go: standard output, a pipe or device, or a file that is whole or not there.

use std::fs::{self, File, Metadata};
use std::io::{self, BufWriter, Write};
use std::os::fd::AsFd;
use std::path::{Path, PathBuf};

use crate::failure::Failure;
use crate::input::{same_file, Input};
use crate::replaced::Replaces;
use crate::system::{Stream, NO_FOLDER};
use crate::temporary::Temporary;
use crate::text::{is_standard, named};

/// Bytes gathered before they are handed on.
const PIECE: usize = 1 << 16;
/// Links followed to find where an output leads.
const MOST_LINKS: usize = 40;

/// An output that was found usable before any input was read.
pub enum Output {
    Standard,
    /// A pipe, a device or a descriptor: written to, and never replaced.
    Stream(PathBuf),
    File(Box<Replacement>),
}

/// A file to be made, or to be put in the place of another.
pub struct Replacement {
    named: PathBuf,
    target: PathBuf,
    before: Option<Metadata>,
    temporary: Temporary,
}

impl Output {
    /// Tests a path and prepares to write there. `force`: replace a file whatever it is, even if it is not
    /// writable.
    pub fn open(
        path: &Path,
        force: bool,
        replaces: Replaces,
        inputs: &[&Input],
    ) -> Result<Self, Failure> {
        if is_standard(path) {
            return Ok(Self::Standard);
        }
        let trouble = |error: io::Error| Failure::file("write", path, &error);
        let (target, before) = target_of(path).map_err(trouble)?;
        if let Some(before) = &before {
            if is_our_output(before) {
                return Ok(Self::Standard);
            }
            if let Some(input) = inputs.iter().find(|input| input.is(before)) {
                return Err(Failure::Trouble(format!(
                    "cannot write {}: it is the input {}; name another output",
                    named(path),
                    input.name()
                )));
            }
            if !before.is_file() || is_descriptor(path) {
                return Ok(Self::Stream(path.to_path_buf()));
            }
            if !force {
                may_be_replaced(path, &target, before, replaces)?;
            }
        }
        let folder = folder_of(&target);
        let temporary = Temporary::in_folder(folder);
        let temporary = temporary.map_err(|error| no_file_in(path, folder, &error))?;
        let named = path.to_path_buf();
        Ok(Self::File(Box::new(Replacement {
            named,
            target,
            before,
            temporary,
        })))
    }

    /// Whether this is standard output, so that reports must go elsewhere.
    pub fn is_standard(&self) -> bool {
        matches!(self, Self::Standard)
    }

    /// Whether this is a file that takes its name when it is whole.
    pub fn is_file(&self) -> bool {
        matches!(self, Self::File(_))
    }

    /// Whether a file would be replaced.
    pub fn replaces(&self) -> bool {
        matches!(self, Self::File(replacement) if replacement.before.is_some())
    }

    /// As `fill`, of what is worth nothing unless it is whole: a reader that goes away before the end is trouble.
    pub fn fill_whole(
        self,
        fill: impl FnOnce(&mut dyn Write) -> io::Result<()>,
    ) -> Result<(), Failure> {
        match self.fill(fill) {
            Err(Failure::OutputClosed) => {
                let error = io::Error::from(io::ErrorKind::BrokenPipe);
                Err(Failure::Trouble(format!(
                    "cannot write to standard output: {error}: its reader is gone"
                )))
            }
            result => result,
        }
    }

    /// Lets `fill` write all of it.
    pub fn fill(self, fill: impl FnOnce(&mut dyn Write) -> io::Result<()>) -> Result<(), Failure> {
        match self {
            Self::Standard => print_with(fill),
            Self::Stream(path) => File::options()
                .append(true)
                .open(&path)
                .and_then(|file| through(file, fill))
                .map_err(|error| Failure::file("write", &path, &error)),
            Self::File(replacement) => {
                let path = replacement.named.clone();
                (replacement.fill(fill)).map_err(|error| Failure::file("write", &path, &error))
            }
        }
    }
}

impl Replacement {
    fn fill(self, fill: impl FnOnce(&mut dyn Write) -> io::Result<()>) -> io::Result<()> {
        through(&self.temporary.file, fill)?;
        (self.temporary).become_file(&self.target, self.before.as_ref())
    }
}

fn through(out: impl Write, fill: impl FnOnce(&mut dyn Write) -> io::Result<()>) -> io::Result<()> {
    let mut out = BufWriter::with_capacity(PIECE, out);
    fill(&mut out).and_then(|()| out.flush())
}

/// Refuses to replace a file that is not writable, or not of the kind that is replaced.
fn may_be_replaced(
    path: &Path,
    target: &Path,
    before: &Metadata,
    replaces: Replaces,
) -> Result<(), Failure> {
    let why_not = match is_writable(target, before) {
        false => Some("not writable"),
        true => replaces.why_not(target, before.len()),
    };
    match why_not {
        None => Ok(()),
        Some(why) => Err(Failure::Trouble(format!(
            "cannot write {}: it is there and {why}; --force replaces it",
            named(path)
        ))),
    }
}

/// The folder that a file stands in.
fn folder_of(path: &Path) -> &Path {
    match path.parent() {
        Some(folder) if !folder.as_os_str().is_empty() => folder,
        _ => Path::new("."),
    }
}

/// Why no file can be made in a folder, with its name.
fn no_file_in(path: &Path, folder: &Path, error: &io::Error) -> Failure {
    let (path, name) = (named(path), named(folder));
    Failure::Trouble(match fs::metadata(folder) {
        Err(error) if error.kind() == io::ErrorKind::NotFound => {
            format!("cannot write {path}: there is no folder {name}")
        }
        Ok(about) if !about.is_dir() => format!("cannot write {path}: {name} is no folder"),
        _ => format!("cannot write {path}: no file can be made in the folder {name}: {error}"),
    })
}

/// What a path leads to by links, and what is there. No folder, and a name of a file.
fn target_of(path: &Path) -> io::Result<(PathBuf, Option<Metadata>)> {
    match fs::metadata(path) {
        Ok(about) if about.is_dir() => Err(io::Error::other("it is a folder")),
        Ok(about) if about.is_file() => Ok((fs::canonicalize(path)?, Some(about))),
        Ok(about) => Ok((path.to_path_buf(), Some(about))),
        Err(error) if error.kind() == io::ErrorKind::NotFound => {
            let target = end_of_links(path);
            match target.file_name() {
                Some(_) => Ok((target, None)),
                None => Err(error),
            }
        }
        // A file's name where a folder's should stand: said when the file is to be made.
        Err(error) if error.raw_os_error() == Some(NO_FOLDER) => Ok((path.to_path_buf(), None)),
        Err(error) => Err(error),
    }
}

/// Where links lead whose end is not there yet.
fn end_of_links(path: &Path) -> PathBuf {
    let mut path = path.to_path_buf();
    for _ in 0..MOST_LINKS {
        match fs::read_link(&path) {
            Ok(next) => path = path.parent().unwrap_or(Path::new("")).join(next),
            Err(_) => break,
        }
    }
    path
}

/// Standard output as a file. (std's own would take what cannot be written for written.)
fn standard_output() -> io::Result<File> {
    Stream::Output.is_there()?;
    Ok(File::from(io::stdout().as_fd().try_clone_to_owned()?))
}

/// Whether standard output goes there already, as with `/dev/stdout`.
fn is_our_output(about: &Metadata) -> bool {
    let ours = standard_output().and_then(|file| file.metadata());
    ours.is_ok_and(|ours| same_file(&ours, about))
}

/// Whether a path names an open descriptor of this program.
fn is_descriptor(path: &Path) -> bool {
    let folders = ["/dev/fd", "/proc/self/fd", "/dev/stderr", "/dev/stdin"];
    folders.iter().any(|folder| path.starts_with(folder))
}

/// Whether one may write to a file. Nobody means to replace a file that is marked read-only, not
/// even root, who may write to all.
fn is_writable(path: &Path, about: &Metadata) -> bool {
    !about.permissions().readonly() && File::options().write(true).open(path).is_ok()
}

/// Writes text to standard output.
pub fn print(text: &str) -> Result<(), Failure> {
    print_with(|out| out.write_all(text.as_bytes()))
}

/// Lets `fill` write to standard output, in large pieces.
pub fn print_with(fill: impl FnOnce(&mut dyn Write) -> io::Result<()>) -> Result<(), Failure> {
    let result = standard_output().and_then(|file| through(file, fill));
    result.map_err(|error| Failure::output(&error))
}
