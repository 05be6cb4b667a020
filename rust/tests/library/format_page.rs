//! docs/FORMAT.md beside the library: the columns taken apart there, and the table of refusals.

use crate::common::pages::look_up_exactly;
use crate::common::{plans, same, PACKED};
use signalfern::{Checked, Cursor, Edition, Layer, Refusal};

const PAGE: &str = include_str!("../../../docs/FORMAT.md");

/// The bytes of each column that the page takes apart, and where it says that they stand.
fn taken_apart() -> Vec<Vec<u8>> {
    let mut columns = Vec::new();
    for table in PAGE
        .split("```")
        .filter(|part| part.starts_with("\nat  bytes"))
    {
        let mut bytes = Vec::new();
        for line in table.trim().lines().skip(1) {
            let mut words = line.split_whitespace();
            let at: usize = words.next().unwrap().parse().unwrap();
            assert_eq!(at, bytes.len(), "{line}");
            // Two spaces end the bytes.
            let (hex, what) = line[4..].split_once("  ").unwrap();
            assert!(!what.trim().is_empty(), "{line}");
            let pairs = hex.split(' ').map(|byte| u8::from_str_radix(byte, 16));
            bytes.extend(pairs.map(Result::unwrap));
        }
        columns.push(bytes);
    }
    columns
}

#[test]
fn columns_taken_apart() {
    let lists: [(&[u32], &[i64], Edition, u32); 6] = [
        (&[0, 2, 7], &[150, 140, 135], Edition::Plain, 9),
        (&[65_536], &[-1], Edition::Plain, 0),
        (&[], &[], Edition::Plain, 9),
        (&[0, 2, 7], &[-2, 5, 1], Edition::Lucene, 9),
        (&[0, 2, 7], &[-2, 5, 1], Edition::Runs, 9),
        (&[0, 2, 7, 9], &[1, i64::MIN, 0, 1], Edition::Table, 9),
    ];
    let columns = taken_apart();
    assert_eq!(columns.len(), lists.len());
    for ((ids, values, edition, power), column) in lists.into_iter().zip(&columns) {
        assert_eq!(&same::write_exactly(ids, values, edition, power), column);
    }
}

/// The sections that the page gives for stored numbers.
#[test]
fn stored_numbers_in_both_editions() {
    assert!(PAGE.contains(
        "Stored numbers 1, 1, 1, 0, 2, 2, 0, 0 at width 2 are `54 A0` in edition 1 and `15 0A` in edition 2. \
         Stored numbers 0, 7, 3 take three bits each in edition 1, `1D 80`, and four in edition 2, `70 03`."
    ));
    for (values, sections) in [
        (&[1, 1, 1, 0, 2, 2, 0, 0][..], [[0x54, 0xA0], [0x15, 0x0A]]),
        (&[0, 7, 3], [[0x1D, 0x80], [0x70, 0x03]]),
    ] {
        let ids: Vec<u32> = (0..values.len() as u32).collect();
        for (edition, section) in PACKED.into_iter().zip(sections) {
            let column = same::write_exactly(&ids, values, edition, 9);
            assert!(column.ends_with(&section), "{column:02X?}");
        }
    }
}

/// The sets that the page has bytes of.
#[test]
fn sets_of_the_page() {
    let full: Vec<u32> = (0..65_536).collect();
    let but_two: Vec<u32> = (0..65_536).filter(|id| ![3, 258].contains(id)).collect();
    for (ids, bytes) in [
        (&[0, 2, 7][..], "01 00 00 03 00 00 02 00 07 00"),
        (&full, "01 00 01 00"),
        (&but_two, "01 00 01 02 03 00 02 01"),
        (&[], "00"),
    ] {
        assert!(PAGE.contains(&format!("`{bytes}`")));
        let set = signalfern::set_write_to_vec(ids).unwrap();
        assert_eq!(set, crate::common::bytes(bytes));
    }
}

#[test]
fn a_changed_value_can_be_sound() {
    assert!(PAGE.contains("byte 26 turned from `D0` to `90` (one bit)"));
    let mut column = taken_apart().swap_remove(0);
    assert_eq!(column[26], 0xD0);
    column[26] = 0x90;
    let scores = Checked::new(&column).unwrap();
    assert!(scores.iter().eq([(0, 145), (2, 140), (7, 135)]));
}

/// What the page says of SHORT and NUMBER, and the bytes it says it of.
#[test]
fn where_a_header_broke() {
    let nine = [0x80; 9];
    let short = |bytes| Err(Refusal::Short { bytes });
    let number = |place| Err(Refusal::Number { place });
    for (words, bytes, refused) in [
        ("`80` alone is SHORT with 1;", &[0x80][..], short(1)),
        ("`80 00` is NUMBER with 1.", &[0x80, 0x00], number(1)),
        (
            "Nine bytes with the top bit set and then the end are SHORT with 9;",
            &nine,
            short(9),
        ),
        (
            "with a tenth byte other than 1 they are NUMBER with 9.",
            &[&nine[..], &[2]].concat(),
            number(9),
        ),
        (
            "`01 03 89 00` is NUMBER with 3:",
            &[0x01, 0x03, 0x89, 0x00],
            number(3),
        ),
    ] {
        assert!(PAGE.contains(words), "{words}");
        assert_eq!(same::check(bytes), refused, "{words}");
    }
}

/// What the page says of a page of ids.
#[test]
fn a_page_of_ids() {
    assert!(PAGE.contains(
        "the ids 7, 5, 7 and 2147352576 give the kinds 0, 1, 0 and 14, the ordinals 2, 0, 2 and 0 and the \
         values 135, 0, 135 and 0."
    ));
    let column = taken_apart().swap_remove(0);
    let (lists, words) = look_up_exactly(&column, &[7, 5, 7, 2_147_352_576]);
    assert_eq!((lists.kinds, words), (vec![0, 1, 0, 14], 0));
    assert_eq!(lists.ordinals, [2, 0, 2, 0]);
    assert_eq!(lists.values, [135, 0, 135, 0]);
}

/// What the page says of the next candidate: target, id and ordinal, or what else.
#[test]
fn the_next_candidate() {
    let column = taken_apart().swap_remove(0);
    let mut cursor = Cursor::new();
    let mut next = |bytes: &[u8], target| {
        let found = same::next_from(&mut cursor, bytes, target);
        found.map(|found| found.map(|it| (it.id, it.ordinal, it.value)))
    };
    assert!(PAGE.contains("target 3 finds id 7 with ordinal 2 and value 135, target 8 finds none, and target 7 is BACK after it"));
    assert_eq!(next(&column, 3), Ok(Some((7, 2, 135))));
    assert_eq!(next(&column, 8), Ok(None));
    assert_eq!(next(&column, 7), Err(Refusal::Back));
    assert!(PAGE.contains(
        "Among the entries 9, 2, 7 target 3 finds place 9, at index 0, and target 10 finds none."
    ));
    let mut entries = column.clone();
    entries[14] = 9;
    cursor = Cursor::new();
    let mut next = |target| same::next_from(&mut cursor, &entries, target);
    assert_eq!(
        next(3).map(|found| found.map(|it| (it.id, it.ordinal))),
        Ok(Some((9, 0)))
    );
    assert_eq!(next(10), Ok(None));
}

/// What the page says of pairs from an id on, and of the pair with an ordinal.
#[test]
fn pairs_from_an_id_on_and_by_their_ordinals() {
    let column = taken_apart().swap_remove(0);
    let read = |bytes: &[u8], id| same::read_from(bytes, id, (2, 2)).unwrap();
    assert!(PAGE.contains(
        "from 1 on into two places come 2 with 140 and 7 with 135, and no listed id is left; from 0 on there come 0 with \
         150 and 2 with 140, and there is more."
    ));
    assert_eq!(read(&column, 1), (vec![(2, 140), (7, 135)], true));
    assert_eq!(read(&column, 0), (vec![(0, 150), (2, 140)], false));
    assert!(PAGE.contains("With byte 14, the place 0, turned to `09`, the entries are 9, 2, 7: from 0 on comes 9 with 150, and no listed id is left."));
    let mut entries = column.clone();
    assert_eq!(entries[14], 0);
    entries[14] = 9;
    assert_eq!(read(&entries, 0), (vec![(9, 150)], true));
    assert!(PAGE.contains("ordinal 1 is id 2 with 140, and ordinal 3 has none."));
    let pair = same::pair_at(&column, 1).unwrap().unwrap();
    assert_eq!((pair.id, pair.value), (2, 140));
    assert_eq!(same::pair_at(&column, 3), Ok(None));
    assert!(PAGE.contains(
        "From ordinal 2 on, 0 to 5 finds ordinal 2 in the column above, and from ordinal 3 on none."
    ));
    let runs = taken_apart().swap_remove(4);
    assert_eq!(same::first_between_from(&runs, 2, 0, 5), Ok(Some(2)));
    assert_eq!(same::first_between_from(&runs, 3, 0, 5), Ok(None));
}

/// The sizes that the page tells of edition 3, and its directory of one run.
#[test]
fn runs_with_a_summary() {
    assert!(PAGE.contains(
        "Of 40000 values, all from 0 to 7 but for one of 1000000 at ordinal 39000, edition 1 makes 40000 times \
         20 bits, 100000 bytes. Edition 3 makes 75 bytes of directory, two runs of 16384 times 3 bits and one of \
         7232 times 20: 75 + 6144 + 6144 + 18080 are 30443."
    ));
    let ids: Vec<u32> = (0..40_000).collect();
    let mut values: Vec<i64> = ids.iter().map(|id| i64::from(id % 8)).collect();
    values[39_000] = 1_000_000;
    for (edition, bytes) in [(Edition::Plain, 100_000), (Edition::Runs, 30_443)] {
        let column = same::write_exactly(&ids, &values, edition, 9);
        assert_eq!(same::open(&column).unwrap().value_bytes(), bytes);
    }
}

#[test]
fn the_first_value_in_a_range() {
    let mut column = taken_apart().swap_remove(4);
    assert!(PAGE.contains(
        "In the column of edition 3 above, 0 to 5 finds ordinal 1, whose value is 5; -1 to 0 finds none, and so does 5 to \
         0. With byte 33, the greatest value, turned from `05` to `04`, 5 to 9 finds none as well"
    ));
    for (low, high, found) in [
        (0, 5, Some(1)),
        (-1, 0, None),
        (5, 0, None),
        (5, 9, Some(1)),
    ] {
        assert_eq!(same::first_between(&column, low, high), Ok(found));
    }
    assert_eq!(column[33], 5);
    column[33] = 4;
    assert_eq!(same::first_between(&column, 5, 9), Ok(None));
    assert_eq!(same::check(&column), Err(Refusal::Damaged));
    assert!(PAGE.contains("the bytes `02 80 00` are EDITION"));
    let other = same::first_between(&[0x02, 0x80, 0x00], 0, 9);
    assert_eq!(other, Err(Refusal::Edition));
}

/// What the page says of tables, of plans, and of a code that is none.
#[test]
fn tables_and_plans() {
    let ids: Vec<u32> = (0..1000).collect();
    assert!(PAGE.contains("Of 1000 pairs with three such values, edition 1 has 1500 bytes of values, and edition 4 has 24 + 250."));
    let values: Vec<i64> = (0..1000).map(|i| [5, 6, 3000][i % 3]).collect();
    for (edition, bytes) in [(Edition::Plain, 1500), (Edition::Table, 24 + 250)] {
        let column = same::write_exactly(&ids, &values, edition, 9);
        let opened = same::open(&column).unwrap();
        assert_eq!((opened.edition(), opened.value_bytes()), (edition, bytes));
    }
    assert!(PAGE.contains(
        "It is shorter for -2^63 and 2^63 - 1, by 2 bytes, and just as long for 2^60 and 2^61."
    ));
    for (values, less) in [([i64::MIN, i64::MAX], Some(2)), ([1 << 60, 1 << 61], None)] {
        let [table, plain] = [Edition::Table, Edition::Plain]
            .map(|edition| same::write_exactly(&[0, 1], &values, edition, 9).len());
        assert_eq!(plain - table, less.unwrap_or(0));
        let by_plan = plans::write(&[0, 1], &values, &values, 9, 99);
        assert_eq!(by_plan.is_ok(), less.is_some());
    }
    assert!(PAGE.contains(
        "For the values 5, 6, 5, 6 and 3000 it says plain; for those of the last column above it proposes -2^63, 0 \
         and 1."
    ));
    assert_eq!(plans::plan(&[5, 6, 5, 6, 3000]), []);
    assert_eq!(plans::plan(&[1, i64::MIN, 0, 1]), [i64::MIN, 0, 1]);
    // The code of ordinal 2 made 3.
    let mut column = taken_apart().swap_remove(5);
    assert_eq!(column[51], 0x86);
    column[51] = 0b1000_1110;
    assert_eq!(same::look_up(&column, 7), Err(Refusal::Broken));
    assert_eq!(same::check(&column), Err(Refusal::Damaged));
}

/// What the page says of a correction on top.
#[test]
fn a_correction_on_top() {
    let machine = taken_apart().swap_remove(0);
    let correction = same::write_exactly(&[2], &[-1], Edition::Plain, 9);
    assert!(PAGE.contains(
        "With (2, -1) on top of the first column above, id 2 has the value -1 and the ordinal 0, by the \
         correction; id 7 has the value 135 and the ordinal 2, by the machine column, from byte 26 on."
    ));
    for (id, layer, ordinal, value) in [(2, Layer::Correction, 0, -1), (7, Layer::Machine, 2, 135)]
    {
        let answer = signalfern::look_up_layered(&machine, &correction, id).unwrap();
        let told = (answer.layer(), answer.ordinal(), answer.value());
        assert_eq!(told, (Some(layer), Some(ordinal), Some(value)));
    }
    let part = signalfern::layered_values(&machine, &correction, 7);
    assert!(std::ptr::eq(part, &machine[26..]));
}

#[test]
fn refusals_by_number_and_name() {
    let (_, section) = PAGE.split_once("\n## Refusals\n").unwrap();
    let rows = section.lines().filter_map(|line| {
        let mut cells = line.strip_prefix("| ")?.split(" | ");
        Some((cells.next()?.parse::<u64>().ok()?, cells.next()?))
    });
    let known = (1..=17).filter_map(|number| Refusal::from_number(number, 0));
    assert!(rows.eq(known.map(|refusal| (refusal.number(), refusal.name()))));
}
