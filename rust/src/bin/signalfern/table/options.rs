//! Options that several commands have.

use crate::command::{flag, option, Choice, Value};

pub const POWERS: Value = Value::OneOf(&["0", "7", "8", "9", "10", "11", "12", "13", "14", "15"]);

pub const JSON_LINES: Choice = flag(None, "json", "one JSON object a line, on standard output");

pub const ONE_DIGEST: Choice = option(
    Some('d'),
    "digest",
    ("HEX", Value::Other),
    "the SHA-256 digest that the file must have",
);

pub const CORRECTION: Choice = option(
    Some('c'),
    "correction",
    ("FILE", Value::File),
    "a column that lies on top of COLUMN: its values are preferred",
);

pub const CORRECTION_DIGEST: Choice = option(
    None,
    "correction-digest",
    ("HEX", Value::Other),
    "the SHA-256 digest that the correction must have",
);

pub const FORMAT: (&str, Value) = ("FORM", Value::OneOf(&["lines", "csv", "tsv", "json"]));

pub const COLUMNS: (&str, Value) = ("ID,VALUE", Value::Other);

pub const HTML: Choice = option(
    None,
    "html",
    ("FILE", Value::File),
    "write a report to this file: one page without anything from outside, to be looked at or printed",
);
