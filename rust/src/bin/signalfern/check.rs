//! check: whether files are sound columns, or sets, and what is wrong with those that are not.

use std::path::{Path, PathBuf};

use crate::arguments::Arguments;
use crate::diagnosis::Diagnosis;
use crate::failure::{complain, say, Failure, DIGEST, REFUSED, TROUBLE};
use crate::json::Object;
use crate::load::Loaded;
use crate::output::print;
use crate::set;
use crate::sha256::Digest;
use crate::text::{counted, hex, is_standard, named};
use crate::witness::Witnesses;

/// What is said where nothing tells the digest that a file should have.
pub const NOT_COMPARED: &str = "no digest was compared: a sound file may still hold changed scores";

/// How the outcomes are told.
struct Manner {
    kind: Kind,
    quiet: bool,
    json: bool,
    /// With one file, all that is known of it is told.
    alone: bool,
}

/// What the files are to be.
#[derive(Clone, Copy, PartialEq, Eq)]
pub enum Kind {
    Column,
    Set,
}

impl Kind {
    pub fn name(self) -> &'static str {
        match self {
            Self::Column => "column",
            Self::Set => "set",
        }
    }

    /// What one holds.
    fn noun(self) -> &'static str {
        match self {
            Self::Column => "pair",
            Self::Set => "id",
        }
    }

    fn not_compared(self) -> &'static str {
        match self {
            Self::Column => NOT_COMPARED,
            Self::Set => "no digest was compared: a sound file may still hold changed ids",
        }
    }
}

/// What became of one file.
enum Outcome {
    Sound {
        count: u64,
        bytes: u64,
        digest: Option<Digest>,
        /// Who told the same digest.
        witnesses: Vec<String>,
    },
    Refused {
        refusal: (u64, &'static str),
        meaning: String,
        diagnosis: Diagnosis,
    },
    Unusable(String),
}

pub fn run(arguments: Arguments) -> Result<(), Failure> {
    check(arguments, Kind::Column)
}

/// Checks files of a kind.
pub fn check(mut arguments: Arguments, kind: Kind) -> Result<(), Failure> {
    let given = arguments.digest("digest")?;
    let mut paths = vec![arguments.file(kind.name())?];
    while let Some(word) = arguments.next() {
        paths.push(PathBuf::from(word));
    }
    if paths.len() > 1 && given.is_some() {
        return Err(arguments.usage("--digest is for one file"));
    }
    if paths.iter().filter(|path| is_standard(path)).count() > 1 {
        return Err(arguments.usage("standard input can be checked once"));
    }
    let manner = Manner {
        kind,
        quiet: arguments.has("quiet"),
        json: arguments.has("json"),
        alone: paths.len() == 1,
    };
    let mut worst = 0;
    for path in &paths {
        let outcome = Outcome::of(path, given, &manner);
        worst = worst.max(outcome.status());
        match outcome.tell(path, &manner) {
            // Whoever reads no further may still ask for the status.
            Ok(()) | Err(Failure::OutputClosed) => {}
            Err(failure) => return Err(failure),
        }
    }
    match worst {
        0 => Ok(()),
        status => Err(Failure::Said(status)),
    }
}

impl Outcome {
    fn of(path: &Path, given: Option<Digest>, manner: &Manner) -> Self {
        match Self::found(path, given, manner) {
            Ok(outcome) => outcome,
            Err(Failure::Refused(message) | Failure::Trouble(message)) => Self::Unusable(message),
            Err(Failure::OutputClosed | Failure::Said(_)) => Self::Unusable(String::new()),
        }
    }

    fn found(path: &Path, given: Option<Digest>, manner: &Manner) -> Result<Self, Failure> {
        let (loaded, judged) = match manner.kind {
            Kind::Column => column(path)?,
            Kind::Set => set::judged(path)?,
        };
        let count = match judged {
            Ok(count) => count,
            Err(refused) => return Ok(refused.outcome()),
        };
        let witnesses = Witnesses::of(path, given)?;
        let is_asked = !witnesses.is_empty() || manner.json || !manner.quiet;
        let digest = is_asked.then(|| loaded.digest());
        if let Some(digest) = digest {
            if let Err(differs) = witnesses.confirm(digest, manner.kind.name()) {
                return Ok(Self::Refused {
                    refusal: DIGEST,
                    meaning: differs.meaning(),
                    diagnosis: differs.diagnosis(),
                });
            }
        }
        Ok(Self::Sound {
            count,
            bytes: loaded.bytes.len() as u64,
            digest,
            witnesses: witnesses.names(),
        })
    }

    fn status(&self) -> u8 {
        match self {
            Self::Sound { .. } => 0,
            Self::Refused { .. } => REFUSED,
            Self::Unusable(_) => TROUBLE,
        }
    }

    fn tell(&self, path: &Path, manner: &Manner) -> Result<(), Failure> {
        let name = named(path);
        if manner.json {
            return print(&self.json(path, manner.kind));
        }
        match self {
            Self::Sound {
                count,
                bytes,
                digest,
                witnesses,
            } if !manner.quiet => {
                let count = counted(*count, manner.kind.noun());
                let digest = digest.map_or(String::new(), |it| format!(", SHA-256 {}", hex(&it)));
                let witness = match witnesses.is_empty() {
                    true => format!("; {}", manner.kind.not_compared()),
                    false => format!(" as {} tells", witnesses.join(" and ")),
                };
                let bytes = counted(*bytes, "byte");
                print(&format!(
                    "{name}: sound, {count} in {bytes}{digest}{witness}\n"
                ))
            }
            Self::Sound { .. } => Ok(()),
            Self::Refused {
                refusal: (number, code),
                meaning,
                diagnosis,
            } => {
                complain(format!("{name}: refusal {number}, {code}: {meaning}"));
                if manner.alone {
                    say(&diagnosis.text());
                }
                Ok(())
            }
            Self::Unusable(message) => {
                complain(message);
                Ok(())
            }
        }
    }

    fn json(&self, path: &Path, kind: Kind) -> String {
        let object = Object::new().file("file", path);
        match self {
            Self::Sound {
                count,
                bytes,
                digest,
                witnesses,
            } => {
                let object = object.text("status", "sound");
                let object = object.number(&format!("{}s", kind.noun()), *count);
                let object = object.number("bytes", *bytes);
                let digest = digest.map_or(String::new(), |it| hex(&it));
                object.text("sha256", &digest).texts("compared", witnesses)
            }
            Self::Refused {
                refusal,
                meaning,
                diagnosis,
            } => diagnosis.json(refused_object(object, *refusal, meaning)),
            Self::Unusable(message) => object.text("status", "unusable").text("message", message),
        }
        .line()
    }
}

/// An object of a refused file.
pub fn refused_object(object: Object, refusal: (u64, &str), meaning: &str) -> Object {
    (object.text("status", "refused"))
        .number("refusal", refusal.0)
        .text("name", refusal.1)
        .text("meaning", meaning)
}

/// What is wrong with a refused file.
pub struct Refused {
    pub refusal: (u64, &'static str),
    pub meaning: String,
    pub diagnosis: Diagnosis,
}

impl Refused {
    fn outcome(self) -> Outcome {
        Outcome::Refused {
            refusal: self.refusal,
            meaning: self.meaning,
            diagnosis: self.diagnosis,
        }
    }
}

/// A file that was read, and its count of pairs or ids, or what is wrong with it.
pub type Judged = (Loaded, Result<u64, Refused>);

fn column(path: &Path) -> Result<Judged, Failure> {
    let mut loaded = Loaded::open(path)?;
    let judged = match loaded.check() {
        Ok(count) => Ok(count),
        Err(refusal) => Err(Refused {
            refusal: (refusal.number(), refusal.name()),
            meaning: refusal.to_string(),
            diagnosis: Diagnosis::of(&mut loaded, refusal),
        }),
    };
    Ok((loaded, judged))
}

impl Diagnosis {
    /// Puts it into an object, with where a header broke by itself.
    pub fn json(&self, object: Object) -> Object {
        let object = match &self.broken {
            Some(it) => (object.number(it.key, it.number)).text("header_number", it.name),
            None => object,
        };
        (object.texts("details", &self.lines)).text("advice", &self.advice)
    }
}
