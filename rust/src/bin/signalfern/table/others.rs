//! Commands for sets, sections, and the tool itself.

use super::options::{JSON_LINES, ONE_DIGEST, POWERS};
use crate::command::{flag, option, Action, Command, Value};
use crate::schema;
use crate::{conform, demo, help, judge, set};

pub const SET: Command = Command {
    name: "set",
    words: "write [FILE] -o SET | check SET... | read SET | find SET [ID...]",
    summary: "ids without values: write, check, read and ask",
    text: &[
        "A set is a file of ids alone. `set write` makes one of the lines of FILE, or of standard input: \
         an id each, ascending. Empty lines and lines that start with # are passed over. A file is whole \
         or not there, and its SHA-256 digest is printed and written to SET.sha256.",
        "`set check` tells for each file whether it is a sound set and how many ids it holds, as `check` \
         does of a column: the set of one list of ids, to the last bit. The status is the worst of all \
         files. `set read` prints the ids, one a line.",
        "`set find` tells for each id its ordinal (how many ids of the set lie below it), or `absent`. The \
         set is checked first, and its digest is compared, as in every command.",
    ],
    options: &[
        option(
            Some('o'),
            "output",
            ("FILE", Value::File),
            "for `set write`: the set's file; - is standard output, and the report then goes to \
             standard error. For `set read`: to this file",
        ),
        option(
            Some('i'),
            "ids",
            ("FILE", Value::File),
            "for `set find`: ask for the ids in this file too, one a line; - is standard input",
        ),
        option(
            Some('d'),
            "digest",
            ("HEX", Value::Other),
            "for `set check`, `set read` and `set find`: the SHA-256 digest that the set must have",
        ),
        flag(
            None,
            "sidecar",
            "for `set write`: write SET.sha256, which is done for files anyway",
        ),
        flag(None, "no-sidecar", "for `set write`: do not write SET.sha256"),
        flag(
            Some('q'),
            "quiet",
            "for `set check`: print nothing about sound sets",
        ),
        flag(
            Some('f'),
            "force",
            "for `set write`: replace a file that is no set or is not writable, or replace one although \
             standard input was empty. For `set read`: replace a file that is there",
        ),
        JSON_LINES,
    ],
    actions: &[
        Action {
            name: "write",
            options: &["output", "sidecar", "no-sidecar", "force", "json"],
        },
        Action {
            name: "check",
            options: &["digest", "quiet", "json"],
        },
        Action {
            name: "read",
            options: &["output", "digest", "force", "json"],
        },
        Action {
            name: "find",
            options: &["ids", "digest", "json"],
        },
    ],
    json: schema::SET,
    run: set::run,
    ..Command::BLANK
};

pub const JUDGE: Command = Command {
    name: "judge",
    words: "FILE --jumps N --power P [--lucene8] [--digest HEX] [--json]",
    summary: "tell whether another maker's id section is right",
    text: &[
        "Judges a bare id section, as Lucene's IndexedDISI writes it, without a header of ours: accepted, \
         with how many ids it holds, or faulty, with the first reason and its byte. The count of jump \
         entries and the rank power stand beside a section and not in it, so both have to be told.",
        "The reasons, in the order in which they are tested, block by block: 1 CUT_OFF, 2 BLOCK_ORDER, \
         3 PLACE_ORDER, 4 ONES, 5 RANK, 6 END_BLOCK; then 7 JUMPS, 8 LEFT_OVER. Where a section is right \
         in the other order of bytes, that is said.",
    ],
    options: &[
        option(
            Some('j'),
            "jumps",
            ("N", Value::Other),
            "how many jump entries the section has: 0 to 32767",
        ),
        option(
            Some('p'),
            "power",
            ("P", POWERS),
            "its rank power: 0 for no ranks, or 7 to 15",
        ),
        flag(
            None,
            "lucene8",
            "numbers are high byte first, as Lucene 8 writes them, and not low byte first as Lucene 9 \
             does",
        ),
        ONE_DIGEST,
        JSON_LINES,
    ],
    json: schema::JUDGE,
    run: judge::run,
    ..Command::BLANK
};

pub const CONFORM: Command = Command {
    name: "conform",
    words: "PROGRAM [WORD...] [--vectors FOLDER] [--only CALL] [--seconds S] [--first] [--json]",
    summary: "run another maker's program over the vectors",
    text: &[
        "Runs PROGRAM with its words, hands it each vector of FOLDER as a line of JSON on standard input, \
         and compares the line that it prints with the reply that is expected. What differs is shown, the \
         first ten in full; then how many of each call passed, and what the program conforms as: writer, \
         reader, judge, set, opened. FOLDER/README.md says what the lines hold.",
        "A line {\"kind\":\"unsupported\"} leaves a vector out. A program that ends, or does not answer in \
         time, is started again, five times in all. The status is 0 where nothing differs and something \
         passed, 1 where something differs, 2 where the program or the vectors cannot be used.",
        "Where a word of the program starts with -, put -- before the program.",
    ],
    options: &[
        option(
            None,
            "vectors",
            ("FOLDER", Value::Folder),
            "the folder of numbers.json and vectors/; `conformance` if none is named",
        ),
        option(
            None,
            "only",
            ("CALL", Value::Other),
            "the vectors of this call alone",
        ),
        option(
            None,
            "seconds",
            ("S", Value::Other),
            "how long a reply may take. The default is 10",
        ),
        flag(None, "first", "stop at the first difference"),
        JSON_LINES,
    ],
    json: schema::CONFORM,
    operands: Value::File,
    run: conform::run,
    ..Command::BLANK
};

pub const DEMO: Command = Command {
    name: "demo",
    words: "[FOLDER] [--json]",
    summary: "all of these on a small column",
    text: &[
        "Makes a list of pairs and a column of it in FOLDER (a new one among the temporary files if \
         none is named), then checks, reads, asks and shows it. Each command is printed before it \
         runs. Files that are there already are not replaced.",
    ],
    options: &[flag(
        None,
        "json",
        "run each command with --json, and print it as an object before",
    )],
    json: schema::DEMO,
    operands: Value::Folder,
    run: demo::run,
    ..Command::BLANK
};

pub const HELP: Command = Command {
    name: "help",
    words: "[COMMAND] [--man] [--completions SHELL] [--json]",
    summary: "this text, or that of a command",
    text: &[
        "Prints the help of all or of one command; or the manual page; or the completions of a \
         shell, for instance:",
        "  signalfern help --man > signalfern.1",
        "  source <(signalfern help --completions bash)",
    ],
    options: &[
        flag(None, "man", "the manual page, as groff and man read it"),
        option(
            None,
            "completions",
            ("SHELL", Value::OneOf(&["bash", "zsh", "fish"])),
            "completions for bash, zsh or fish",
        ),
        flag(
            None,
            "json",
            "an object for each command, with its options and the members of its own objects",
        ),
    ],
    operands: Value::OneOf(&[
        "write", "check", "read", "look-up", "next", "find", "stats", "diff", "audit", "show",
        "judge", "set", "conform", "demo", "help",
    ]),
    json: schema::HELP,
    run: help::run,
    ..Command::BLANK
};
