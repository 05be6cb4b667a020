//! The commands and their options, written once: the parser, the help, the man page and the shell
//! completions are all made from this table.

mod asking;
mod files;
mod options;
mod others;

use crate::command::Command;
use asking::{AUDIT, FIND, LOOK_UP, NEXT};
use files::{CHECK, DIFF, READ, SHOW, STATS, WRITE};
use others::{CONFORM, DEMO, HELP, JUDGE, SET};

/// What the tool is, above the list of commands.
pub const ABOUT: &str = "score columns, by proved calls";

pub const INTRODUCTION: &str = "A column is a file that holds pairs of an id (0 to 2147352575, \
ascending) and a signed 64-bit value.";

pub const STANDARD: &str = "Where a file is to be read, - stands for standard input; after -o it \
stands for standard output.";

pub const STATUS: &str = "Exit status: 0 done; 1 the input is refused (the refusal's number, name \
and meaning stand on standard error, and nothing is written); 2 the command line is wrong or a file \
cannot be used. Refusals 1 to 17 are the library's (5 is not used), those from 101 the tool's. \
`diff` has the status of diff: 0 the same, 1 different, 2 trouble, and a refused file is trouble.";

/// What "sound" means, wherever the word is used.
pub const SOUND: &str = "Sound means: the bytes are the column of one list of pairs, to the last \
bit, as the writer would give it. It does not mean that nobody changed a score: the format has no \
checksum, and most changes of a stored value give another sound column. To know that a file is the \
one that was written, compare its SHA-256 digest: --digest, or a file COLUMN.sha256 beside it.";

/// Which digests are compared.
pub const DIGESTS: &str = "Every command that reads a column, a set, a section or a list compares the \
digest in a file NAME.sha256 beside it, where there is one, in either form of sha256sum; and the one \
of --digest, where it is given. A file with another digest is refused (102, DIGEST). `write` and `set \
write` make that file.";

/// How JSON is written.
pub const JSON: &str = "With --json a command prints one JSON object a line. Values, ordinals and \
header numbers are strings of digits, since many readers round numbers above 2^53; ids, counts, \
places, bytes and refusals are numbers. A file's name is as it is on the disk; of one that is no \
UTF-8, a member with _hex at the end of its name has the bytes. Members that do not apply are left out.";

pub static COMMANDS: &[Command] = &[
    WRITE, CHECK, READ, LOOK_UP, NEXT, FIND, STATS, DIFF, AUDIT, SHOW, JUDGE, SET, CONFORM, DEMO,
    HELP,
];

/// Words that people try, and the command that they mean.
pub const OTHER_NAMES: &[(&str, &str)] = &[
    ("get", "look-up"),
    ("ask", "look-up"),
    ("query", "look-up"),
    ("cat", "read"),
    ("print", "read"),
    ("dump", "read"),
    ("export", "read"),
    ("list", "read"),
    ("verify", "check"),
    ("validate", "check"),
    ("test", "check"),
    ("create", "write"),
    ("make", "write"),
    ("build", "write"),
    ("import", "write"),
    ("info", "show"),
    ("inspect", "show"),
    ("view", "show"),
    ("search", "find"),
    ("grep", "find"),
    ("compare", "diff"),
    ("cmp", "diff"),
    ("summary", "stats"),
    ("histogram", "stats"),
    ("report", "audit"),
    ("explain", "audit"),
    ("seek", "next"),
    ("version", "--version"),
];
