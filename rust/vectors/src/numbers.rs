//! `numbers.json`: limits, widths, refusals, reasons and calls by number and name.

/// The refusals of documents 01 and 02, by number.
const REFUSALS: [(u32, &str); 16] = [
    (1, "LENGTHS"),
    (2, "POWER"),
    (3, "ORDER"),
    (4, "RANGE"),
    (6, "ROOM"),
    (7, "SHORT"),
    (8, "NUMBER"),
    (9, "EDITION"),
    (10, "HEADER"),
    (11, "LENGTH"),
    (12, "BUFFER"),
    (13, "DAMAGED"),
    (14, "ID"),
    (15, "BROKEN"),
    (16, "BACK"),
    (17, "PLAN"),
];

/// The reasons of the judge, from 1 on.
const REASONS: [&str; 8] = [
    "CUT_OFF",
    "BLOCK_ORDER",
    "PLACE_ORDER",
    "ONES",
    "RANK",
    "END_BLOCK",
    "JUMPS",
    "LEFT_OVER",
];

/// What a maker may conform as, and the calls of each.
const CLASSES: [(&str, &[&str]); 9] = [
    ("writer", &["write", "write_planned", "plan"]),
    (
        "reader",
        &[
            "check",
            "read",
            "look_up",
            "look_up_page",
            "next",
            "first_between",
            "look_up_layered",
            "layered_values",
        ],
    ),
    ("judge", &["judge"]),
    ("set", &["set_write", "set_check", "set_find"]),
    (
        "opened",
        &[
            "open",
            "look_up_in",
            "next_in",
            "first_between_in",
            "look_up_layered_in",
        ],
    ),
    ("walker", &["read_from", "pair_at", "first_between_from"]),
    (
        "opened_walker",
        &["read_from_in", "pair_at_in", "first_between_from_in"],
    ),
    ("layers", &["look_up_layered_page", "read_layered_from"]),
    (
        "opened_layers",
        &["look_up_layered_page_in", "read_layered_from_in"],
    ),
];

const LIMITS: &str = r#"  "limits": {
    "id": 2147352575, "block_number": 32765, "count": 2147352576, "jump_count": 32767, "width": 64,
    "powers": [0, 7, 8, 9, 10, 11, 12, 13, 14, 15],
    "table_least": 2, "table_most": 256, "run_length": 16384, "directory_bytes": 25, "set_blocks": 32766,
    "sparse_most": 4095, "set_listed_most": 4096, "set_missing_most": 4095, "end_block_number": 32767
  },
  "editions": [1, 2, 3, 4],
  "widths_of_edition_2": [0, 1, 2, 4, 8, 12, 16, 20, 24, 28, 32, 40, 48, 56, 64],
  "page_kinds": {"found": 0, "absent": 1},
"#;

/// The text of `numbers.json`.
#[must_use]
pub fn numbers_file() -> String {
    let named = |(number, name): &(u32, &str)| format!("\"{name}\": {number}");
    let refusals: Vec<String> = REFUSALS.iter().map(named).collect();
    let reasons: Vec<String> = (1..).zip(REASONS).map(|it| named(&it)).collect();
    let class = |(name, calls): &(&str, &[&str])| {
        let calls: Vec<String> = calls.iter().map(|call| format!("\"{call}\"")).collect();
        format!("    \"{name}\": [{}]", calls.join(", "))
    };
    let classes: Vec<String> = CLASSES.iter().map(class).collect();
    format!(
        "{{\n{LIMITS}  \"refusals\": {{{}}},\n  \"reasons\": {{{}}},\n  \"classes\": {{\n{}\n  }}\n}}\n",
        refusals.join(", "),
        reasons.join(", "),
        classes.join(",\n")
    )
}
