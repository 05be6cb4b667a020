//! The members of the objects that `--json` prints, for the table.

use crate::command::{field, Field, Kind::*};

const FILE: Field = field("file", Text, "the file's name");
const FILE_HEX: Field = field("file_hex", Text, "its bytes, where the name is no UTF-8");
const BYTES: Field = field("bytes", Number, "the bytes of the file");
const SHA256: Field = field("sha256", Text, "its SHA-256 digest");
const ID: Field = field("id", Number, "the id");
const VALUE: Field = field("value", Long, "its value");
const ORDINAL: Field = field("ordinal", Long, "how many ids lie below it");
const REFUSAL: Field = field("refusal", Number, "the refusal's number");
const NAME: Field = field("name", Text, "the refusal's name");
const MEANING: Field = field("meaning", Text, "what it means");
const DETAILS: Field = field("details", Texts, "what is wrong, and where");
const ADVICE: Field = field("advice", Text, "what to do");

pub const WRITE: &[Field] = &[
    FILE,
    FILE_HEX,
    field("status", Text, "written; with --dry-run, would be written"),
    field("pairs", Number, "how many pairs it holds"),
    BYTES,
    field(
        "left_out",
        Number,
        "with --duplicates, pairs that were left out",
    ),
    field("edition", Number, "the edition written"),
    field(
        "editions",
        Objects,
        "with --best, edition and bytes of each",
    ),
    SHA256,
    field(
        "line",
        Number,
        "with --dry-run, the number of a bad line; an object each",
    ),
    REFUSAL,
    NAME,
    MEANING,
];

pub const CHECK: &[Field] = &[
    FILE,
    FILE_HEX,
    field("status", Text, "sound, refused or unusable"),
    field("pairs", Number, "how many pairs it holds"),
    BYTES,
    SHA256,
    field(
        "compared",
        Texts,
        "who told the same digest; empty if nobody",
    ),
    REFUSAL,
    NAME,
    MEANING,
    field("place", Number, "of NUMBER, the place of the bad byte"),
    field(
        "header_number",
        Text,
        "of SHORT and NUMBER, the header number that is bad",
    ),
    DETAILS,
    ADVICE,
    field("message", Text, "why it is unusable"),
];

pub const READ: &[Field] = &[
    ID,
    field(
        "value",
        Long,
        "its value; both members are named by --columns, if that is given",
    ),
    field("by", Text, "with --by, machine or correction"),
];

pub const LOOK_UP: &[Field] = &[
    ID,
    field("answer", Text, "found or absent"),
    VALUE,
    ORDINAL,
    field("by", Text, "with --correction, machine or correction"),
    field(
        "words",
        Number,
        "bitmap words counted, of an id on the command line",
    ),
    field(
        "probes",
        Number,
        "entries of a sparse block probed, of the same",
    ),
    field(
        "machine_words",
        Number,
        "with --correction, the words of COLUMN, of an id on the command line",
    ),
    field("correction_words", Number, "and those of the correction"),
];

pub const NEXT: &[Field] = &[
    field("target", Number, "the id from which on it was sought"),
    field("answer", Text, "found or none"),
    ID,
    VALUE,
    ORDINAL,
];

pub const FIND: &[Field] = &[
    field("low", Long, "the range's smallest value"),
    field("high", Long, "and its greatest"),
    field("answer", Text, "found, none, or with --count counted"),
    ID,
    VALUE,
    ORDINAL,
    field("count", Number, "with --count, how many pairs there are"),
];

pub const STATS: &[Field] = &[
    FILE,
    FILE_HEX,
    field("pairs", Number, "how many pairs it holds"),
    field("smallest", Long, "the smallest value"),
    field("greatest", Long, "the greatest value"),
    field(
        "mean",
        Text,
        "the mean, rounded to three digits after the point",
    ),
    field("quantiles", Objects, "part (as 0.25) and value of each"),
    field("histogram", Objects, "low, high and count of each range"),
];

pub const DIFF: &[Field] = &[
    field("added", Number, "in the first object: ids that B adds"),
    field("removed", Number, "ids that it lacks"),
    field("changed", Number, "ids whose value is another"),
    field("same", Number, "ids whose value is the same"),
    field("change", Text, "in the others: added, removed or changed"),
    ID,
    field("old", Long, "the value in A"),
    field("new", Long, "the value in B"),
];

pub const AUDIT: &[Field] = &[
    field("tool", Text, "in the first object: the tool's version"),
    field("library", Text, "the library's"),
    field(
        "files",
        Objects,
        "of each column: layer, file, pairs, bytes, sha256, compared",
    ),
    ID,
    field("answer", Text, "in the others: found or absent"),
    field("by", Text, "the column that speaks: machine or correction"),
    VALUE,
    ORDINAL,
    field(
        "section",
        Object,
        "the value section: start and bytes, places in the file",
    ),
    field("stored", Long, "the stored number"),
    field(
        "bits",
        Object,
        "its bits: first, from the section's first on, and count",
    ),
    field("sum", Text, "how it gives the value"),
    field(
        "at",
        Objects,
        "the bytes that hold it: place, byte and bits",
    ),
    field(
        "overruled",
        Object,
        "the same of COLUMN, where the correction speaks instead",
    ),
];

pub const SHOW: &[Field] = &[
    FILE,
    FILE_HEX,
    field("status", Text, "sound or refused"),
    REFUSAL,
    NAME,
    MEANING,
    BYTES,
    SHA256,
    field(
        "compared",
        Texts,
        "who told the same digest; empty if nobody",
    ),
    field("header", Object, "the header's numbers by their names"),
    field(
        "blocks",
        Objects,
        "first, last, kind, ids and bytes of neighbours of one kind",
    ),
    field(
        "runs",
        Objects,
        "of edition 3: ordinal, smallest, greatest, start and width",
    ),
    field("table", Objects, "of edition 4: code, value and pairs"),
    field("parts", Objects, "where the bytes go: part and bytes"),
    field("place", Number, "of NUMBER, the place of the bad byte"),
    field(
        "header_number",
        Text,
        "of SHORT and NUMBER, the header number that is bad",
    ),
    DETAILS,
    ADVICE,
];

pub const SET: &[Field] = &[
    FILE,
    FILE_HEX,
    field(
        "status",
        Text,
        "of a file: written, sound, refused or unusable",
    ),
    field("ids", Number, "how many ids it holds"),
    BYTES,
    SHA256,
    field(
        "compared",
        Texts,
        "who told the same digest; empty if nobody",
    ),
    REFUSAL,
    NAME,
    MEANING,
    DETAILS,
    ADVICE,
    field("message", Text, "why it is unusable"),
    ID,
    field("answer", Text, "of `set find`: found or absent"),
    ORDINAL,
];

pub const JUDGE: &[Field] = &[
    FILE,
    FILE_HEX,
    field("status", Text, "accepted or faulty"),
    field("ids", Number, "how many ids it holds"),
    BYTES,
    SHA256,
    field("reason", Number, "the reason's number"),
    field("name", Text, "its name"),
    field("place", Number, "the byte"),
    field("block", Number, "the block's number, where there is one"),
    MEANING,
    ADVICE,
];

pub const CONFORM: &[Field] = &[
    field("call", Text, "the call; an object each"),
    field(
        "class",
        Text,
        "what it belongs to: writer, reader, judge, set, opened",
    ),
    field(
        "passed",
        Number,
        "how many vectors were answered as expected",
    ),
    field(
        "differ",
        Number,
        "how many were answered otherwise, or not at all",
    ),
    field("unsupported", Number, "how many the program leaves out"),
    field("left", Number, "how many were not asked"),
];

pub const DEMO: &[Field] = &[
    field(
        "command",
        Texts,
        "the words of a command; the objects that follow are its own",
    ),
    field("folder", Text, "in the last object: where the files are"),
];

pub const HELP: &[Field] = &[
    field("command", Text, "its name"),
    field("words", Text, "what may follow"),
    field("summary", Text, "what it does"),
    field("actions", Texts, "the words that may come first"),
    field("options", Objects, "long, short, value and help of each"),
    field(
        "members",
        Objects,
        "of its own objects: member, type and about",
    ),
];
