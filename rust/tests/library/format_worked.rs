//! docs/FORMAT.md beside the library: the longer examples, told in part, and a bad section for each reason.

use crate::common::same;
use signalfern::{ByteOrder, Edition, Fault, Reason, Section};

const PAGE: &str = include_str!("../../../docs/FORMAT.md");

/// Lines of the page, each a place and the bytes from there on: `FF`, `FF, 20 times`, or `00 20 .. 0F E0`, of which
/// the ends are told. Compares them with the bytes, up to the last place told.
fn told(lines: &str, bytes: &[u8]) {
    let mut at = 0;
    for line in lines.trim_matches('\n').lines() {
        let mut words = line.trim_start_matches(['S', 'D', ' ']).splitn(2, "  ");
        let place: usize = words.next().unwrap().parse().unwrap();
        let hex = words.next().unwrap().split("  ").next().unwrap();
        match hex.split_once(" .. ") {
            Some((first, last)) => {
                let (first, last) = (crate::common::bytes(first), crate::common::bytes(last));
                assert_eq!(place, at, "{line}");
                assert!(bytes[at..].starts_with(&first), "{line}");
                // The next line starts right after the last of them.
                let rest = &bytes[at..];
                let end = rest.windows(2).position(|it| it == last).unwrap() + 2;
                at += end;
            }
            None => {
                let (hex, times) = match hex.strip_suffix(" times") {
                    Some(words) => words.split_once(", ").unwrap(),
                    None => (hex, "1"),
                };
                let piece = crate::common::bytes(hex).repeat(times.parse().unwrap());
                assert_eq!(place, at, "{line}");
                assert_eq!(&bytes[at..at + piece.len()], piece, "{line}");
                at += piece.len();
            }
        }
    }
    assert_eq!(at, bytes.len());
}

/// The block of the page that starts with these words, between its fences.
fn fenced(first: &str) -> &'static str {
    let (_, after) = PAGE.split_once(&format!("```\n{first}")).unwrap();
    after.split_once("```").unwrap().0
}

#[test]
fn a_dense_block_and_two_runs() {
    let ids: Vec<u32> = (0..16_387).collect();
    let mut values: Vec<i64> = (0..16_384).map(|i| i % 4).collect();
    values.extend([1000, 1004, 1002]);
    let column = same::write_exactly(&ids, &values, Edition::Runs, 9);
    assert!(PAGE.contains("16387 pairs in 12619 bytes"));
    assert_eq!(column.len(), 12_619);
    let lines = fenced("from   bytes");
    told(lines.split_once('\n').unwrap().1, &column);
    for (words, id, ordinal, value, counted) in [
        ("so 700, by 3 words", 700, Some(700), Some(0), 3),
        (
            "so its value is 1000 + 4",
            16_385,
            Some(16_385),
            Some(1004),
            1,
        ),
        ("Id 16387 is absent, by 1 word", 16_387, None, None, 1),
    ] {
        assert!(PAGE.contains(words), "{words}");
        let answer = signalfern::look_up(&column, id).unwrap();
        let found = (answer.ordinal(), answer.value(), answer.words());
        assert_eq!(found, (ordinal, value, counted));
    }
}

#[test]
fn a_bitmap_of_a_set() {
    let words = "The 8192 ids 0, 8, 16, .. 65528 are a bitmap: `01 00 02 00`, for one block, number 0, kind 2, length 0, \
                 and then 8192 times `01`";
    assert!(PAGE.contains(words));
    let ids: Vec<u32> = (0..65_536).step_by(8).collect();
    let set = signalfern::set_write_to_vec(&ids).unwrap();
    assert_eq!(set, [&[1, 0, 2, 0][..], &[1; 8192]].concat());
}

/// What the page says of a table where V takes a byte more.
#[test]
fn a_table_saves_less_where_v_is_longer() {
    assert!(PAGE.contains("For n from 889 to 1016 it does not"));
    let bytes = |values: [i64; 2], count: usize, edition| {
        let ids: Vec<u32> = (0..count as u32).collect();
        let values: Vec<i64> = values.into_iter().cycle().take(count).collect();
        let column = same::write_exactly(&ids, &values, edition, 9);
        (same::open(&column).unwrap().edition(), column.len())
    };
    for count in [888, 889, 1016, 1017] {
        let saved = 2 - usize::from((889..=1016).contains(&count));
        let far = [i64::MIN, i64::MAX];
        let (edition, table) = bytes(far, count, Edition::Table);
        assert_eq!(edition, Edition::Table);
        assert_eq!(table + saved, bytes(far, count, Edition::Plain).1);
        // As long, or longer by one: no table.
        let none = bytes([1 << 60, 1 << 61], count, Edition::Table).0;
        assert_eq!(none, Edition::Plain);
    }
}

/// The two sections of the page.
fn sections() -> [Vec<u8>; 2] {
    let sixteenth: Vec<u32> = (0..65_536).step_by(16).collect();
    [&[2, 7, 65_541][..], &sixteenth].map(|ids| {
        let column = same::write_exactly(ids, &vec![0; ids.len()], Edition::Plain, 9);
        column[same::open(&column).unwrap().start() as usize..].to_vec()
    })
}

#[test]
fn a_bad_section_for_each_reason() {
    let [s, d] = sections();
    let (told_s, told_d) = fenced("S   0").split_once("\nD").unwrap();
    told(&format!("0{told_s}"), &s);
    told(told_d, &d);
    let (_, rows) = PAGE
        .split_once("| section | changed | reason | place |\n")
        .unwrap();
    let rows = rows.split("\n\n").next().unwrap().lines().skip(1);
    let mut reasons = Vec::new();
    for row in rows {
        let cells: Vec<&str> = row.trim_matches('|').split('|').map(str::trim).collect();
        let (mut bytes, mut jump_count) = match cells[0] {
            "S" => (s.clone(), 3),
            _ => (d.clone(), 0),
        };
        change(cells[1], &mut bytes, &mut jump_count);
        let section = Section {
            bytes: &bytes,
            jump_count,
            power: 9,
            order: ByteOrder::LowFirst,
        };
        let Err(Fault::At { reason, place }) = section.judge() else {
            panic!("{row}");
        };
        let place = place.to_string();
        assert_eq!((reason.name(), &place[..]), (cells[2], cells[3]), "{row}");
        reasons.push(reason);
    }
    reasons.dedup();
    assert_eq!(reasons, Reason::EACH);
}

/// What a row of the page says is changed.
fn change(words: &str, bytes: &mut Vec<u8>, jump_count: &mut u64) {
    let number = |word: &str| word.parse::<usize>().unwrap();
    let parts: Vec<&str> = words.split([' ', ':']).collect();
    match parts[..] {
        ["its", "first", count, ..] => bytes.truncate(number(count)),
        ["a", "byte", "more"] => bytes.push(0),
        ["told", "with", count, ..] => *jump_count = number(count) as u64,
        ["byte", at, ..] | ["bytes", at, ..] => {
            let hex = words.split('`').nth(1).unwrap();
            let others = crate::common::bytes(hex);
            bytes[number(at)..][..others.len()].copy_from_slice(&others);
        }
        _ => panic!("{words}"),
    }
}
