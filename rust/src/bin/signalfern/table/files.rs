//! Commands that make columns, and tell of whole ones.

use super::options::{
    COLUMNS, CORRECTION, CORRECTION_DIGEST, FORMAT, HTML, JSON_LINES, ONE_DIGEST, POWERS,
};
use super::SOUND;
use crate::command::{flag, option, Command, Value};
use crate::schema;
use crate::{check, diff, read, show, stats, write};

pub const WRITE: Command = Command {
    name: "write",
    words: "[FILE] -o COLUMN [-p P] [--edition E | --best] [--format FORM] [--columns ID,VALUE] \
            [--sort] [--duplicates WHICH] [--dry-run] [--limit N] [--no-sidecar] [--force] [--json]",
    summary: "make a column of lines `ID VALUE`",
    text: &[
        "Makes a column of the lines of FILE, or of standard input. Each line is `ID VALUE`; ids \
         ascend from line to line. Empty lines and lines that start with # are passed over, and so is a \
         byte order mark before the first. A line has at most 65536 bytes. Tables and JSON lines are \
         taken with --format.",
        "A file is written beside its place and takes its name when it is whole: it is the old file \
         or the new one, whatever happens. A column that is there is replaced, and an empty file; any \
         other only with --force. Pipes and devices are written to. The column's SHA-256 digest is \
         printed, and written to COLUMN.sha256 as sha256sum does.",
    ],
    options: &[
        option(
            Some('o'),
            "output",
            ("COLUMN", Value::File),
            "the column's file; - is standard output, and the report then goes to standard error",
        ),
        option(
            Some('p'),
            "power",
            ("P", POWERS),
            "rank power: 0 for no ranks, or 7 to 15 for one rank to every 2^P places of a dense \
             block. The default is 9",
        ),
        option(
            Some('e'),
            "edition",
            ("E", Value::OneOf(&["1", "2", "3", "4"])),
            "how values are stored: 1 in the least width, high bit first; 2 as Lucene 9 packs them, low \
             bit first, in one of its widths; 3 as 1, but in runs of 16384 values with a width each, and \
             with a directory of them, by which `find` searches; 4 by a table of the distinct values, 2 to \
             256 of them, and a code for each pair, or as 1 where no table makes the column shorter. The \
             default is 1. Every command reads them all",
        ),
        flag(
            Some('b'),
            "best",
            "in the edition with the fewest bytes, of several the first; what each of them would take is \
             told",
        ),
        option(
            None,
            "format",
            FORMAT,
            "the form of the input: lines; csv or tsv, a table with a header line, whose fields are set \
             apart by commas (or semicolons) or tabs; json, an object a line. The default is lines",
        ),
        option(
            None,
            "columns",
            COLUMNS,
            "of a table or JSON lines, the names of the two columns, or members, that hold id and value. \
             The default is id,value, or id,score where there is no value",
        ),
        flag(None, "sort", "sort the pairs by id first"),
        option(
            None,
            "duplicates",
            ("WHICH", Value::OneOf(&["first", "last", "refuse"])),
            "where an id stands several times, one after the other or with --sort anywhere: keep its first \
             pair or its last, or refuse the list. The default is refuse",
        ),
        flag(
            Some('n'),
            "dry-run",
            "write nothing; name all bad lines, up to a limit, or tell what the column would be",
        ),
        option(
            None,
            "limit",
            ("N", Value::Other),
            "with --dry-run, name at most so many bad lines. The default is 20",
        ),
        flag(
            None,
            "sidecar",
            "write COLUMN.sha256, which is done for files anyway; where there can be none, it is an error",
        ),
        flag(None, "no-sidecar", "do not write COLUMN.sha256"),
        flag(
            Some('f'),
            "force",
            "replace a file that is no column or is not writable, or replace one although standard input \
             was empty",
        ),
        JSON_LINES,
    ],
    json: schema::WRITE,
    run: write::run,
    ..Command::BLANK
};

pub const CHECK: Command = Command {
    name: "check",
    words: "COLUMN... [--digest HEX] [-q] [--json]",
    summary: "tell whether it is sound, and what is wrong if not",
    text: &[
        "Tells for each file whether it is a sound column and how many pairs it holds, with its \
         SHA-256 digest. Of a file that is refused, alone on the command line, it tells what is \
         wrong, where, and what to do next. The status is the worst of all files.",
        SOUND,
        "Where a file COLUMN.sha256 stands beside a column, its digest is compared. Where nothing tells \
         one, the line says so.",
    ],
    options: &[
        option(
            Some('d'),
            "digest",
            ("HEX", Value::Other),
            "the SHA-256 digest that the one file must have",
        ),
        flag(
            Some('q'),
            "quiet",
            "print nothing about sound files; messages about others stay",
        ),
        JSON_LINES,
    ],
    json: schema::CHECK,
    run: check::run,
    ..Command::BLANK
};

pub const READ: Command = Command {
    name: "read",
    words: "COLUMN [-o FILE] [--from ID] [--to ID] [--limit N] [--correction FILE] [--by] \
            [--format FORM] [--columns ID,VALUE] [--digest HEX] [--force] [--json]",
    summary: "print its pairs as lines `ID VALUE`",
    text: &[
        "Prints the pairs of a column as lines `ID VALUE`, as a table, or as JSON lines. The whole column \
         is checked before the first line. Pairs are printed as they are read, some at a time, in little \
         memory whatever the column holds. Where all are printed and they are not as many as the header \
         tells of, that is said, and the status is 1.",
        "With --correction the pairs of both columns are printed, in the order of the ids: the correction's, \
         where both hold an id. --by adds the column that each came from, machine or correction.",
    ],
    options: &[
        option(
            Some('o'),
            "output",
            ("FILE", Value::File),
            "to this file, which is whole or not there",
        ),
        option(None, "from", ("ID", Value::Other), "begin with this id"),
        option(None, "to", ("ID", Value::Other), "end with this id"),
        option(None, "limit", ("N", Value::Other), "at most so many pairs"),
        CORRECTION,
        CORRECTION_DIGEST,
        flag(
            None,
            "by",
            "with --correction: after each value the column that it came from",
        ),
        option(
            None,
            "format",
            FORMAT,
            "the form of the output: lines; csv or tsv, a table with a header line; json, an object a \
             line. The default is lines",
        ),
        option(
            None,
            "columns",
            COLUMNS,
            "of a table or JSON lines, the names of the two columns, or members. The default is id,value",
        ),
        ONE_DIGEST,
        flag(Some('f'), "force", "replace a file that is there"),
        flag(None, "json", "the same as --format json"),
    ],
    json: schema::READ,
    run: read::run,
    ..Command::BLANK
};

pub const STATS: Command = Command {
    name: "stats",
    words: "COLUMN [--bins N] [--digest HEX] [--json]",
    summary: "how its values are distributed",
    text: &[
        "Tells how many pairs a column has, the smallest and the greatest value, the mean, quantiles, and \
         draws how many values lie in each of some ranges of equal width. A quantile q is the smallest \
         value that at least the part q of all values does not exceed, so it is a value of the column; all \
         are exact but the mean, which is rounded to three digits. The column is checked first.",
    ],
    options: &[
        option(
            None,
            "bins",
            ("N", Value::Other),
            "how many ranges to draw, 1 to 1000. The default is 20",
        ),
        ONE_DIGEST,
        JSON_LINES,
    ],
    json: schema::STATS,
    run: stats::run,
    ..Command::BLANK
};

pub const DIFF: Command = Command {
    name: "diff",
    words: "A B [--limit N] [-q] [--json]",
    summary: "which pairs differ between two columns",
    text: &[
        "Compares the pairs of two columns, whatever their editions. The first line counts: the ids that B \
         adds, those that it lacks, those whose value is another, and those that are the same. Then a line \
         for each that differs, in the order of the ids: `+ ID VALUE`, `- ID VALUE`, or `! ID OLD NEW`.",
        "The status is that of diff: 0 where all pairs are the same, 1 where some differ, 2 for trouble; a \
         refused file is trouble. Both columns are checked first.",
    ],
    options: &[
        option(None, "limit", ("N", Value::Other), "at most so many lines after the counts"),
        flag(Some('q'), "quiet", "print nothing; the status tells"),
        JSON_LINES,
    ],
    json: schema::DIFF,
    run: diff::run,
    ..Command::BLANK
};

pub const SHOW: Command = Command {
    name: "show",
    words: "COLUMN [--digest HEX] [--html FILE] [--force] [--json]",
    summary: "what is in it, and where the bytes go",
    text: &[
        "Shows the header, the blocks of ids with their kind and count (neighbours of one kind \
         together), of a column of edition 3 the runs of values, of one of edition 4 its table with how \
         often each value comes, and where the bytes go. Of a damaged column, or one with another digest, \
         it shows what can be made out, and says that it is refused; of such a one there is no report.",
    ],
    options: &[
        ONE_DIGEST,
        HTML,
        flag(Some('f'), "force", "for --html: replace a file that is no report"),
        JSON_LINES,
    ],
    json: schema::SHOW,
    run: show::run,
    ..Command::BLANK
};
