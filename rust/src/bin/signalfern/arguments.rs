//! The words of a command line, taken apart.

use std::ffi::{OsStr, OsString};
use std::os::unix::ffi::OsStrExt;
use std::path::PathBuf;

use crate::command::{Choice, Command};
use crate::failure::Failure;
use crate::nearest::did_you_mean;
use crate::sha256::Digest;
use crate::sidecar::parse_digest;
use crate::text::{cut, is_standard, quoted};
use crate::words::parse_asked;

/// What stood on the command line.
pub struct Arguments {
    command: &'static Command,
    words: std::vec::IntoIter<OsString>,
    chosen: Vec<(&'static str, OsString)>,
}

/// The words after a command, or the wish for its help.
pub enum Parsed {
    Arguments(Arguments),
    Help,
}

/// An option as it was typed, its table entry, and what was joined to it.
type Found<'a> = (String, &'static Choice, Option<&'a OsStr>);

impl Command {
    /// Takes the words after the command apart.
    pub fn parse(&'static self, words: &[OsString]) -> Result<Parsed, Failure> {
        let mut plain = Vec::new();
        let mut chosen: Vec<(&'static str, OsString)> = Vec::new();
        let mut words = words.iter();
        while let Some(word) = words.next() {
            if word == "--" {
                plain.extend(words.by_ref().cloned());
                break;
            }
            if word == "-h" || word == "--help" {
                return Ok(Parsed::Help);
            }
            let is_number = matches!(word.as_bytes(), [b'-', b'0'..=b'9', ..]);
            let is_plain = word.len() < 2 || !word.as_bytes().starts_with(b"-");
            if is_plain || self.negative && is_number {
                plain.push(word.clone());
                continue;
            }
            for (typed, choice, joined) in self.options_in(word)? {
                let value = match (choice.value, joined) {
                    (None, None) => OsString::new(),
                    (None, Some(_)) => return Err(self.usage(format!("`{typed}` takes no value"))),
                    (Some(_), Some(joined)) => joined.to_os_string(),
                    (Some(_), None) => match words.next() {
                        Some(next) => next.clone(),
                        None => return Err(self.usage(format!("`{typed}` needs a value"))),
                    },
                };
                if chosen.iter().any(|(before, _)| *before == choice.long) {
                    return Err(self.usage(format!("`--{}` stands twice", choice.long)));
                }
                chosen.push((choice.long, value));
            }
        }
        Ok(Parsed::Arguments(Arguments {
            command: self,
            words: plain.into_iter(),
            chosen,
        }))
    }

    /// The options in a word that starts with `-`: a long one, or some short ones.
    fn options_in<'a>(&self, word: &'a OsStr) -> Result<Vec<Found<'a>>, Failure> {
        let bytes = word.as_bytes();
        if let Some(long) = bytes.strip_prefix(b"--") {
            let end = long.iter().position(|&byte| byte == b'=');
            let name = &long[..end.unwrap_or(long.len())];
            let joined = end.map(|end| OsStr::from_bytes(&long[end + 1..]));
            let found = self.options.iter().find(|it| it.long.as_bytes() == name);
            return match found {
                Some(choice) => Ok(vec![(format!("--{}", choice.long), choice, joined)]),
                None => Err(self.no_option(&word.as_bytes()[..name.len() + 2])),
            };
        }
        let mut found = Vec::new();
        for (at, byte) in bytes.iter().enumerate().skip(1) {
            let letter = char::from(*byte);
            let Some(choice) = self.options.iter().find(|it| it.short == Some(letter)) else {
                return Err(self.no_option(bytes));
            };
            let rest = &bytes[at + 1..];
            let rest = rest.strip_prefix(b"=").unwrap_or(rest);
            let takes_rest = choice.value.is_some() && !rest.is_empty();
            let joined = takes_rest.then(|| OsStr::from_bytes(rest));
            found.push((format!("-{letter}"), choice, joined));
            if takes_rest {
                break;
            }
        }
        Ok(found)
    }

    fn no_option(&self, typed: &[u8]) -> Failure {
        let names: Vec<String> = (self.options.iter())
            .map(|choice| format!("--{}", choice.long))
            .collect();
        let hint = did_you_mean(&String::from_utf8_lossy(typed), &names);
        self.usage(format!("there is no option {}{hint}", quoted(typed)))
    }

    /// A wrong command line.
    pub fn usage(&self, message: impl std::fmt::Display) -> Failure {
        Failure::usage(message, Some(self.name))
    }
}

impl Arguments {
    /// The value of an option.
    pub fn value(&self, long: &str) -> Option<&OsStr> {
        let mut chosen = self.chosen.iter();
        chosen
            .find(|(name, _)| *name == long)
            .map(|(_, value)| value.as_os_str())
    }

    /// Whether an option without a value is there.
    pub fn has(&self, long: &str) -> bool {
        self.value(long).is_some()
    }

    /// The value of an option as a path.
    pub fn path(&self, long: &str) -> Option<PathBuf> {
        self.value(long).map(PathBuf::from)
    }

    /// A number that an option gives.
    pub fn number<T: std::str::FromStr>(
        &self,
        long: &str,
        what: &str,
    ) -> Result<Option<T>, Failure> {
        let Some(word) = self.value(long) else {
            return Ok(None);
        };
        let number = word.to_str().and_then(|word| word.parse().ok());
        match number {
            Some(number) => Ok(Some(number)),
            None => Err(self.usage(format!("{} is no {what}", quoted(word.as_bytes())))),
        }
    }

    /// A digest that an option gives.
    pub fn digest(&self, long: &str) -> Result<Option<Digest>, Failure> {
        let Some(word) = self.value(long) else {
            return Ok(None);
        };
        match parse_digest(word.as_bytes()) {
            Some(digest) => Ok(Some(digest)),
            None => {
                let word = quoted(word.as_bytes());
                Err(self.usage(format!(
                    "{word} is no SHA-256 digest: 64 hexadecimal digits"
                )))
            }
        }
    }

    /// The digest of the correction, which must be named then.
    pub fn correction_digest(&self) -> Result<Option<Digest>, Failure> {
        let digest = self.digest("correction-digest")?;
        if digest.is_some() && !self.has("correction") {
            return Err(self.usage("--correction-digest is for a --correction"));
        }
        Ok(digest)
    }

    /// Refuses a report that is to be JSON too.
    pub fn one_form(&self) -> Result<(), Failure> {
        match self.has("html") && self.has("json") {
            true => Err(self.usage("--html or --json: one of them")),
            false => Ok(()),
        }
    }

    /// Refuses that more than one of some files comes from standard input.
    pub fn one_standard<'a>(
        &self,
        paths: impl IntoIterator<Item = &'a PathBuf>,
    ) -> Result<(), Failure> {
        match paths.into_iter().filter(|path| is_standard(path)).count() {
            0 | 1 => Ok(()),
            _ => Err(self.usage("only one file can come from standard input")),
        }
    }

    /// The next plain word.
    pub fn next(&mut self) -> Option<OsString> {
        self.words.next()
    }

    /// The next plain word, which must be there.
    pub fn file(&mut self, what: &str) -> Result<PathBuf, Failure> {
        let command = self.command;
        self.next()
            .map(PathBuf::from)
            .ok_or_else(|| command.usage(format!("no {what} is named")))
    }

    /// All plain words that are left, which must be ids: their numbers, and as they were typed.
    pub fn ids(&mut self) -> Result<Vec<(u32, String)>, Failure> {
        let mut ids = Vec::new();
        while let Some(word) = self.next() {
            match parse_asked(word.as_bytes()) {
                Ok(id) => ids.push((id, cut(word.as_bytes()))),
                Err(wrong) => return Err(self.usage(wrong.parts().1)),
            }
        }
        Ok(ids)
    }

    /// The last plain word, which must be an id: as it was typed, and its number.
    pub fn last_id(&mut self) -> Result<(String, u32), Failure> {
        let Some(word) = self.next() else {
            return Err(self.usage("no id is named"));
        };
        self.finish()?;
        match parse_asked(word.as_bytes()) {
            Ok(id) => Ok((cut(word.as_bytes()), id)),
            Err(wrong) => Err(self.usage(wrong.parts().1)),
        }
    }

    /// The next plain word, which says what is to be done. Options of other actions are refused.
    pub fn action(&mut self) -> Result<String, Failure> {
        let actions = self.command.actions;
        let names: Vec<&str> = actions.iter().map(|action| action.name).collect();
        let Some(word) = self.next() else {
            let names = listed(&names, "or");
            return Err(self.usage(format!("what to do is not named: {names}")));
        };
        let Some(action) = actions.iter().find(|action| word == action.name) else {
            let hint = did_you_mean(
                &word.to_string_lossy(),
                &names
                    .iter()
                    .map(|name| name.to_string())
                    .collect::<Vec<_>>(),
            );
            let (word, names) = (quoted(word.as_bytes()), listed(&names, "nor"));
            return Err(self.usage(format!("{word} is neither {names}{hint}")));
        };
        let is_other = |long: &&str| !action.options.contains(long);
        match self
            .chosen
            .iter()
            .map(|(long, _)| *long)
            .find(|it| is_other(it))
        {
            None => Ok(action.name.to_string()),
            Some(long) => {
                let its = actions
                    .iter()
                    .filter(|action| action.options.contains(&long));
                let its: Vec<String> = its
                    .map(|it| format!("`{} {}`", self.command.name, it.name))
                    .collect();
                let its: Vec<&str> = its.iter().map(String::as_str).collect();
                Err(self.usage(format!("`--{long}` is for {}", listed(&its, "and"))))
            }
        }
    }

    /// Refuses words that are left over.
    pub fn finish(&mut self) -> Result<(), Failure> {
        match self.next() {
            None => Ok(()),
            Some(word) => {
                let word = quoted(word.as_bytes());
                Err(self.usage(format!("{word} is one word too many")))
            }
        }
    }

    /// A wrong command line.
    pub fn usage(&self, message: impl std::fmt::Display) -> Failure {
        self.command.usage(message)
    }
}

/// Words as one would list them: `a, b or c`.
fn listed(words: &[&str], last: &str) -> String {
    match words.split_last() {
        Some((end, front)) if !front.is_empty() => format!("{} {last} {end}", front.join(", ")),
        _ => words.concat(),
    }
}
