//! Digests that a file must have, and who tells them: `--digest`, and the sidecar beside it.

use std::path::Path;

use crate::diagnosis::Diagnosis;
use crate::failure::{Failure, DIGEST};
use crate::sha256::Digest;
use crate::sidecar;
use crate::text::{hex, named};

/// Who tells a digest of a file, and which.
pub struct Witnesses(Vec<(String, Digest)>);

/// A sound file that is not the one that somebody's digest was taken of.
pub struct Differs {
    what: &'static str,
    digest: Digest,
    by: String,
    told: Digest,
}

impl Witnesses {
    /// What is given by an option, and what the sidecar of the file tells.
    pub fn of(path: &Path, given: Option<Digest>) -> Result<Self, Failure> {
        let given = given.map(|digest| ("--digest".to_string(), digest));
        let beside = named(&sidecar::path_of(path));
        let told = sidecar::read(path)?.into_iter();
        let told = told.map(|digest| (beside.clone(), digest));
        Ok(Self(given.into_iter().chain(told).collect()))
    }

    /// Whether nobody tells anything, so that nothing can be compared.
    pub fn is_empty(&self) -> bool {
        self.0.is_empty()
    }

    /// Who they are.
    pub fn names(&self) -> Vec<String> {
        let mut names: Vec<String> = self.0.iter().map(|(by, _)| by.clone()).collect();
        names.dedup();
        names
    }

    /// An error where one of them tells another digest than that of the file; `what` is its kind.
    pub fn confirm(&self, digest: Digest, what: &'static str) -> Result<(), Differs> {
        match self.0.iter().find(|(_, told)| *told != digest) {
            None => Ok(()),
            Some((by, told)) => Err(Differs {
                what,
                digest,
                by: by.clone(),
                told: *told,
            }),
        }
    }
}

impl Differs {
    pub fn meaning(&self) -> String {
        match self.what {
            // Of these nobody has said that they are sound.
            "text" | "file" => {
                format!("this is not the {} that the digest was taken of", self.what)
            }
            what => format!("a sound {what}, but not the one that the digest was taken of"),
        }
    }

    pub fn diagnosis(&self) -> Diagnosis {
        let lines = vec![
            format!("SHA-256 of the file  {}", hex(&self.digest)),
            format!("told by {}  {}", self.by, hex(&self.told)),
        ];
        let advice = "do not use what it holds: take the file again from where it was written";
        Diagnosis::new(lines, advice)
    }

    /// The refusal whole.
    pub fn failure(&self, name: &str) -> Failure {
        let (meaning, lines) = (self.meaning(), self.diagnosis().text());
        Failure::refused_as(name, DIGEST, format!("{meaning}\n{}", lines.trim_end()))
    }
}
