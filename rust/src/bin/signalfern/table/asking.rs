//! Commands that ask a column.

use super::options::{CORRECTION, CORRECTION_DIGEST, HTML, JSON_LINES, ONE_DIGEST};
use crate::command::{flag, option, Command, Value};
use crate::schema;
use crate::{audit, find, look_up, next};

pub const LOOK_UP: Command = Command {
    name: "look-up",
    words: "COLUMN [ID...] [--correction FILE] [--ids FILE] [--digest HEX] [--unchecked] [--json]",
    summary: "ask for single ids",
    text: &[
        "Asks a column for single ids. One line for each: the id, then its value and its ordinal \
         (how many ids lie below it), or `absent`; then the bitmap words that were counted and the \
         entries of a sparse block that were probed.",
        "The ids of a file (--ids), one a line, are asked for by pages, which is the sooner way for many. \
         They may repeat and stand in any order, which is that of the answers; words and probes are not \
         told. A line that is no id, as one of a list of pairs, ends it: the answers to the lines before \
         are printed, and the status is 1. From a terminal or a pipe each line is answered as it comes.",
        "With --correction a second column lies on top: it answers for the ids that it holds, and \
         COLUMN for all others. A line then names the column that spoke, `by correction` or `by \
         machine`, whose ordinal it is, and for an id on the command line has the words of each; probes \
         are not told.",
        "The column is checked first, and so is a correction: a damaged one could give a wrong value.",
    ],
    options: &[
        CORRECTION,
        CORRECTION_DIGEST,
        option(
            Some('i'),
            "ids",
            ("FILE", Value::File),
            "ask for the ids in this file too, one a line; - is standard input",
        ),
        ONE_DIGEST,
        flag(
            None,
            "unchecked",
            "do not check the column first; answers may then be wrong. A digest is compared all the same",
        ),
        JSON_LINES,
    ],
    json: schema::LOOK_UP,
    run: look_up::run,
    ..Command::BLANK
};

pub const NEXT: Command = Command {
    name: "next",
    words: "COLUMN ID [--count K] [--digest HEX] [--json]",
    summary: "the first listed ids from an id on",
    text: &[
        "Gives the first listed id at or above ID, and with --count those after it. One line for \
         each: the id, then its value and its ordinal (how many ids lie below it). Where there are no \
         more, a line `none at or above` says so; that is an answer, and the status is 0.",
        "The column is checked first: a damaged one could give a wrong value.",
    ],
    options: &[
        option(
            None,
            "count",
            ("K", Value::Other),
            "so many ids, each the first above the one before it. The default is 1",
        ),
        ONE_DIGEST,
        JSON_LINES,
    ],
    json: schema::NEXT,
    run: next::run,
    ..Command::BLANK
};

pub const FIND: Command = Command {
    name: "find",
    words: "COLUMN LOW HIGH [--all] [--count] [--digest HEX] [--json]",
    summary: "the pairs with a value in a range",
    text: &[
        "Finds the first pair whose value is from LOW to HIGH, both included, or with --all every one. One \
         line: the id, then its value and its ordinal (how many ids lie below it). Where there is no such \
         pair, a line `none from LOW to HIGH` says so; that is an answer, and the status is 0. A LOW above \
         HIGH is a wrong command line.",
        "In a column of edition 3 they are found by the directory: it tells the smallest and the greatest \
         value of each run of 16384, and runs that cannot hold such a value are not read. In the others all \
         pairs are read. The column is checked first.",
    ],
    options: &[
        flag(Some('a'), "all", "every such pair, in the order of the ids"),
        flag(None, "count", "tell how many such pairs there are, and no pair"),
        ONE_DIGEST,
        JSON_LINES,
    ],
    json: schema::FIND,
    negative: true,
    run: find::run,
    ..Command::BLANK
};

pub const AUDIT: Command = Command {
    name: "audit",
    words: "COLUMN [ID...] [--correction FILE] [--ids FILE] [--digest HEX] [--html FILE] [--json]",
    summary: "the bytes that hold the value of an id",
    text: &[
        "Shows for each id the bytes that hold its value: where they stand in the file, in hexadecimal, and \
         bit by bit, with the bits of this value between [ and ]. With --correction it tells which column \
         speaks, and where the correction overrules COLUMN, the scores of both.",
        "Before them stand the versions of tool and library and the digest of each file; with --html they \
         make a report in one file, with where the bytes go, a map of the ids and the distribution of the \
         scores. Both columns are checked first.",
    ],
    options: &[
        CORRECTION,
        CORRECTION_DIGEST,
        option(
            Some('i'),
            "ids",
            ("FILE", Value::File),
            "the ids in this file too, one a line; - is standard input",
        ),
        ONE_DIGEST,
        HTML,
        flag(Some('f'), "force", "for --html: replace a file that is no report"),
        JSON_LINES,
    ],
    json: schema::AUDIT,
    run: audit::run,
    ..Command::BLANK
};
