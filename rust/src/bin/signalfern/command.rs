//! What a command of the tool is, and an option of it.

use crate::arguments::Arguments;
use crate::failure::Failure;

/// One command of the tool.
pub struct Command {
    pub name: &'static str,
    /// What may follow the name, for a person.
    pub words: &'static str,
    /// Half a line that says what it does.
    pub summary: &'static str,
    /// Paragraphs; those that start with a space are shown as they are.
    pub text: &'static [&'static str],
    pub options: &'static [Choice],
    /// What its first plain word may be, where that decides which options there are.
    pub actions: &'static [Action],
    /// What its objects hold with `--json`.
    pub json: &'static [Field],
    /// What its plain words are, for completions.
    pub operands: Value,
    /// Whether a plain word may be a negative number.
    pub negative: bool,
    pub run: fn(Arguments) -> Result<(), Failure>,
}

impl Command {
    /// What all of them start from.
    pub const BLANK: Self = Self {
        name: "",
        words: "",
        summary: "",
        text: &[],
        options: &[],
        actions: &[],
        json: &[],
        operands: Value::File,
        negative: false,
        run: crate::help::run,
    };
}

/// What a command with several parts can do: the word for it, and its options by their long names.
pub struct Action {
    pub name: &'static str,
    pub options: &'static [&'static str],
}

/// A member of a JSON object: its name, its type, and what it is.
pub struct Field {
    pub name: &'static str,
    pub kind: Kind,
    pub about: &'static str,
}

/// The type of a member.
#[derive(Clone, Copy, PartialEq, Eq)]
pub enum Kind {
    Text,
    /// Below 2^53 whatever comes.
    Number,
    /// A string of digits.
    Long,
    Texts,
    Objects,
    Object,
}

impl Kind {
    pub fn name(self) -> &'static str {
        match self {
            Self::Text => "string",
            Self::Number => "number",
            Self::Long => "string of digits",
            Self::Texts => "list of strings",
            Self::Objects => "list of objects",
            Self::Object => "object",
        }
    }
}

/// A member that is told where there is one.
pub const fn field(name: &'static str, kind: Kind, about: &'static str) -> Field {
    Field { name, kind, about }
}

/// One option of a command.
pub struct Choice {
    pub short: Option<char>,
    pub long: &'static str,
    /// The name and the kind of its value, if it takes one.
    pub value: Option<(&'static str, Value)>,
    pub help: &'static str,
}

/// What may stand in a place of the command line.
#[derive(Clone, Copy)]
pub enum Value {
    File,
    Folder,
    Other,
    OneOf(&'static [&'static str]),
}

/// An option without a value.
pub const fn flag(short: Option<char>, long: &'static str, help: &'static str) -> Choice {
    Choice {
        short,
        long,
        value: None,
        help,
    }
}

/// An option with a value.
pub const fn option(
    short: Option<char>,
    long: &'static str,
    value: (&'static str, Value),
    help: &'static str,
) -> Choice {
    Choice {
        short,
        long,
        value: Some(value),
        help,
    }
}
