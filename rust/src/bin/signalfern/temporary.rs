//! A file under way, which takes its name only when it is whole.

use std::fs::{self, File, Metadata};
use std::hash::{BuildHasher, RandomState};
use std::io;
use std::os::unix::fs::{fchown, MetadataExt, OpenOptionsExt};
use std::path::{Path, PathBuf};

use crate::system::{self, Removal};

/// Tries to find a name that is not taken.
const TRIES: usize = 100;

/// A file that is written beside its place. It has no name at all until it is whole, so however the
/// program ends, nothing stays behind. Where the file system knows no such files it has a name, which
/// is removed when the program ends.
pub struct Temporary {
    pub file: File,
    name: Option<Named>,
}

impl Temporary {
    pub fn in_folder(folder: &Path) -> io::Result<Self> {
        let mut options = File::options();
        options.write(true).custom_flags(system::O_TMPFILE);
        if Path::new("/proc/self/fd").is_dir() {
            if let Ok(file) = options.open(folder) {
                return Ok(Self { file, name: None });
            }
        }
        let (name, file) = Named::in_folder(folder, |path| {
            File::options().write(true).create_new(true).open(path)
        })?;
        let name = Some(name);
        Ok(Self { file, name })
    }

    /// Puts the file in the place of `target`; `before` is what stands there, if anything does.
    pub fn become_file(mut self, target: &Path, before: Option<&Metadata>) -> io::Result<()> {
        if let Some(before) = before {
            // Only root may give files away; for others the new file is theirs.
            let _ = fchown(&self.file, Some(before.uid()), Some(before.gid()));
            self.file.set_permissions(before.permissions())?;
        }
        self.file.sync_all()?;
        if self.name.is_none() && before.is_none() {
            match system::give_name(&self.file, target) {
                // Something came in between; it is replaced, as a renaming would.
                Err(error) if error.kind() == io::ErrorKind::AlreadyExists => {}
                result => return result,
            }
        }
        let name = match self.name.take() {
            Some(name) => name,
            None => {
                let folder = target.parent().unwrap_or(Path::new(""));
                let (name, ()) =
                    Named::in_folder(folder, |path| system::give_name(&self.file, path))?;
                name
            }
        };
        name.rename(target)
    }
}

/// A name that goes away again unless it is renamed.
struct Named {
    path: PathBuf,
    renamed: bool,
    _removal: Removal,
}

impl Named {
    /// Makes something under a new name, which does not depend on the name wanted at last: that may
    /// be as long as the file system allows.
    fn in_folder<T>(folder: &Path, make: impl Fn(&Path) -> io::Result<T>) -> io::Result<(Self, T)> {
        let mut last = io::Error::from(io::ErrorKind::AlreadyExists);
        for turn in 0..TRIES {
            // Every `RandomState` has other keys.
            let random = RandomState::new().hash_one((std::process::id(), turn));
            let path = folder.join(format!(".signalfern-{random:016x}.part"));
            let removal = Removal::of(&path)?;
            match make(&path) {
                Ok(made) => {
                    let named = Self {
                        path,
                        renamed: false,
                        _removal: removal,
                    };
                    return Ok((named, made));
                }
                Err(error) if error.kind() == io::ErrorKind::AlreadyExists => last = error,
                Err(error) => return Err(error),
            }
        }
        Err(last)
    }

    fn rename(mut self, target: &Path) -> io::Result<()> {
        fs::rename(&self.path, target)?;
        self.renamed = true;
        Ok(())
    }
}

impl Drop for Named {
    fn drop(&mut self) {
        if !self.renamed {
            // Nothing better can be done where this fails too.
            let _ = fs::remove_file(&self.path);
        }
    }
}
