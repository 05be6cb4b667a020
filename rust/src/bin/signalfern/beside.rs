//! The digest that a writer leaves beside its output.

use std::path::Path;

use crate::arguments::Arguments;
use crate::failure::{complain, Failure};
use crate::input::Input;
use crate::output::Output;
use crate::replaced::Replaces;
use crate::sha256::Digest;
use crate::sidecar;
use crate::text::named;

/// The digest that stands beside an output.
pub enum Sidecar {
    Made(Output),
    /// None is wanted.
    Unwanted,
    /// None can be: of standard output, a pipe or a device; or the name would be too long, which is said.
    Impossible,
}

impl Sidecar {
    /// To be opened before any input is read, as the output itself.
    pub fn open(
        arguments: &Arguments,
        path: &Path,
        output: &Output,
        inputs: &[&Input],
    ) -> Result<Self, Failure> {
        let (wanted, unwanted) = (arguments.has("sidecar"), arguments.has("no-sidecar"));
        if wanted && unwanted {
            return Err(arguments.usage("--sidecar or --no-sidecar: one of them"));
        }
        if wanted && !output.is_file() {
            return Err(arguments.usage("--sidecar needs an output that is a file with a name"));
        }
        if unwanted {
            return Ok(Self::Unwanted);
        }
        if !output.is_file() {
            return Ok(Self::Impossible);
        }
        if !wanted && sidecar::is_too_long(path) {
            complain(format!(
                "no digest beside {}: the name is too long",
                named(path)
            ));
            return Ok(Self::Impossible);
        }
        let (path, force) = (sidecar::path_of(path), arguments.has("force"));
        Output::open(&path, force, Replaces::Sidecars, inputs).map(Self::Made)
    }

    /// After the output is there.
    pub fn write(self, path: &Path, digest: &Digest) -> Result<(), Failure> {
        match self {
            Self::Made(output) => sidecar::write(output, path, digest),
            Self::Unwanted => {
                warn_of_old_sidecar(path, digest);
                Ok(())
            }
            Self::Impossible => Ok(()),
        }
    }
}

/// A sidecar of the file before would have the new one refused.
fn warn_of_old_sidecar(path: &Path, digest: &Digest) {
    match sidecar::read(path) {
        Ok(old) if old.iter().all(|old| old == digest) => {}
        _ => complain(format!(
            "{} is of another file: take it away, or write without --no-sidecar",
            named(&sidecar::path_of(path))
        )),
    }
}
