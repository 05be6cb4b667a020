//! Each call of the library beside the reference, on buffers filled beforehand.

use signalfern::{Checked, Column, Cursor, Edition, Header, Readout, Refusal};
use signalfern_reference::{self as reference, Answer, Candidate};

fn numbers(refusal: Refusal) -> (u64, u64) {
    (refusal.number(), refusal.number_with())
}

fn plain<T>(result: Result<T, reference::Refusal>) -> Result<T, (u64, u64)> {
    result.map_err(|refusal| (refusal.number, refusal.with))
}

/// Bytes that differ from place to place, so that no change goes unseen.
pub fn filling(len: usize) -> Vec<u8> {
    (0..len).map(|i| (i * 7 + 0x5A) as u8).collect()
}

/// Writes to `room` bytes; gives the column if there was one.
#[track_caller]
pub fn write(
    ids: &[u32],
    values: &[i64],
    edition: Edition,
    power: u32,
    room: usize,
) -> Result<Vec<u8>, Refusal> {
    let before = filling(room);
    let (mut ours, mut theirs) = (before.clone(), before.clone());
    let result = signalfern::write(ids, values, edition, power, &mut ours);
    let number = edition.number();
    let expected = plain(reference::write(ids, values, number, power, &mut theirs));
    assert_eq!(result.map(|len| len as u64).map_err(numbers), expected);
    let changed = result.unwrap_or(0);
    assert!(ours[..changed] == theirs[..changed], "other bytes");
    assert!(
        ours[changed..] == before[changed..],
        "bytes after the column changed"
    );
    ours.truncate(changed);
    result.map(|_| ours)
}

/// Writes to just the room that is needed, and to one byte less.
#[track_caller]
pub fn write_exactly(ids: &[u32], values: &[i64], edition: Edition, power: u32) -> Vec<u8> {
    let Err(Refusal::Room { needed }) = write(ids, values, edition, power, 0) else {
        panic!("a list of pairs that can be written");
    };
    let short = write(ids, values, edition, power, needed - 1);
    assert_eq!(short, Err(Refusal::Room { needed }));
    write(ids, values, edition, power, needed).expect("room for the column")
}

#[track_caller]
pub fn check(bytes: &[u8]) -> Result<u64, Refusal> {
    let result = signalfern::check(bytes);
    assert_eq!(result.map_err(numbers), plain(reference::check(bytes)));
    result
}

/// Reads into buffers of the given lengths; gives the pairs if there were some.
#[track_caller]
pub fn read(
    bytes: &[u8],
    ids_len: usize,
    values_len: usize,
) -> Result<(Vec<u32>, Vec<i64>), Refusal> {
    let ids: Vec<u32> = (0..ids_len as u32).map(|i| !(i * 3)).collect();
    let values: Vec<i64> = (0..values_len as i64).map(|i| !(i * 5)).collect();
    let (mut our_ids, mut our_values) = (ids.clone(), values.clone());
    let (mut their_ids, mut their_values) = (ids.clone(), values.clone());
    let result = signalfern::read(bytes, &mut our_ids, &mut our_values);
    let expected = plain(reference::read(bytes, &mut their_ids, &mut their_values));
    assert_eq!(result.map(|count| count as u64).map_err(numbers), expected);
    let changed = result.unwrap_or(0);
    assert!(our_ids[..changed] == their_ids[..changed], "other ids");
    assert!(
        our_values[..changed] == their_values[..changed],
        "other values"
    );
    assert!(
        our_ids[changed..] == ids[changed..],
        "ids after the pairs changed"
    );
    assert!(
        our_values[changed..] == values[changed..],
        "values after the pairs changed"
    );
    our_ids.truncate(changed);
    our_values.truncate(changed);
    result.map(|_| (our_ids, our_values))
}

/// The bytes as a checked column, if the check accepts them: the walk gives the pairs that the
/// reading gives.
#[track_caller]
pub fn walk(bytes: &[u8]) -> Result<Checked<'_>, Refusal> {
    let result = Checked::new(bytes);
    assert_eq!(result.map(|column| column.len() as u64), check(bytes));
    if let Ok(column) = result {
        let (ids, values) = read(bytes, column.len(), column.len())?;
        let pairs = ids.into_iter().zip(values);
        assert!(column.iter().eq(pairs), "other pairs than the reading's");
    }
    result
}

/// The library's answer in the reference's type: only the library can make its own. Whatever the
/// bytes, 12 probes are the most.
#[track_caller]
pub fn told(answer: signalfern::Answer) -> Answer {
    let (words, probes) = (answer.words(), answer.probes());
    assert!(probes <= 12, "{answer:?}");
    match answer {
        signalfern::Answer::Found { ordinal, value, .. } => Answer::Found {
            ordinal,
            value,
            words,
            probes,
        },
        signalfern::Answer::Absent { .. } => Answer::Absent { words, probes },
    }
}

/// Opens the bytes with both.
#[track_caller]
pub fn open(bytes: &[u8]) -> Result<Column<'_>, Refusal> {
    let result = Column::open(bytes);
    let expected = plain(reference::open(bytes));
    let opened = result.map(|column| to_reference(column.header()));
    assert_eq!(opened.map_err(numbers), expected);
    if let Ok(column) = result {
        by_methods(column, bytes);
    }
    result
}

/// What the methods tell is what stands in the header.
#[track_caller]
fn by_methods(column: Column, bytes: &[u8]) {
    let header = column.header();
    assert_eq!(u64::from(column.edition().number()), header.edition);
    assert_eq!(Edition::from_number(header.edition), Some(column.edition()));
    assert_eq!(column.count(), header.count);
    assert_eq!(column.power(), header.power);
    assert_eq!(column.id_bytes(), header.id_bytes);
    assert_eq!(column.jump_count(), header.jump_count);
    assert_eq!(column.width(), header.width);
    assert_eq!(column.smallest(), header.smallest);
    assert_eq!(column.divisor(), header.divisor);
    assert_eq!(column.value_bytes(), header.value_bytes);
    assert_eq!(column.start(), header.start);
    assert_eq!(column.len() as u64, header.count);
    assert_eq!(column.is_empty(), header.count == 0);
    assert!(std::ptr::eq(column.bytes(), bytes));
}

/// Looks up by the bytes and, where they open, by the opened column.
#[track_caller]
pub fn look_up(bytes: &[u8], id: u32) -> Result<Answer, Refusal> {
    let result = signalfern::look_up(bytes, id).map(told);
    let expected = plain(reference::look_up(bytes, id));
    assert_eq!(result.map_err(numbers), expected, "id {id}");
    if let Ok(column) = Column::open(bytes) {
        assert_eq!(column.look_up(id).map(told), result, "id {id}");
    }
    result
}

/// Looks up by any numbers in any bytes.
#[track_caller]
pub fn look_up_in(header: Header, bytes: &[u8], id: u32) -> Result<Answer, Refusal> {
    let result = header.look_up_in(bytes, id).map(told);
    let expected = plain(reference::look_up_in(&to_reference(header), bytes, id));
    assert_eq!(result.map_err(numbers), expected, "{header:?} id {id}");
    result
}

/// What a call for the next candidate gave, in the reference's type.
pub fn candidate(found: Option<signalfern::Candidate>) -> Option<Candidate> {
    found.map(|found| Candidate {
        id: found.id,
        ordinal: found.ordinal,
        value: found.value,
    })
}

/// Asks for the next candidate by the bytes and, where they open, by the opened column.
#[track_caller]
pub fn next_from(
    cursor: &mut Cursor,
    bytes: &[u8],
    target: u32,
) -> Result<Option<Candidate>, Refusal> {
    let (before, mut last) = (*cursor, cursor.last());
    let result = signalfern::next(cursor, bytes, target).map(candidate);
    let expected = plain(reference::next(&mut last, bytes, target));
    assert_eq!(result.map_err(numbers), expected, "{before:?}, {target}");
    assert_eq!(cursor.last(), last, "{before:?}, {target}");
    assert!(result.is_ok() || *cursor == before, "{before:?}, {target}");
    if let Ok(column) = Column::open(bytes) {
        let mut opened = before;
        let again = column.next(&mut opened, target).map(candidate);
        assert_eq!((again, opened), (result, *cursor), "{before:?}, {target}");
    }
    result
}

/// From here on there are so few ids that each can be tried.
pub const HIGH: u32 = 32_763 << 16;

/// The next candidate from a cursor at 7, which a refusal keeps; beside each id in turn, where these
/// are few.
#[track_caller]
pub fn next(bytes: &[u8], target: u32) -> Result<Option<Candidate>, Refusal> {
    let mut cursor = Cursor::at(7);
    let answer = next_from(&mut cursor, bytes, target);
    let last = if answer.is_ok() { target } else { 7 };
    assert_eq!(cursor, Cursor::at(last), "{target}");
    if target >= HIGH {
        let each = plain(reference::next_by_each_id(&mut 7, bytes, target));
        assert_eq!(answer.map_err(numbers), each, "{target}");
    }
    answer
}

/// Asks for the next candidate by any numbers in any bytes.
#[track_caller]
pub fn next_in(
    header: Header,
    cursor: &mut Cursor,
    bytes: &[u8],
    target: u32,
) -> Result<Option<Candidate>, Refusal> {
    let (before, mut last) = (*cursor, cursor.last());
    let result = header.next_in(cursor, bytes, target).map(candidate);
    let expected = reference::next_in(&to_reference(header), &mut last, bytes, target);
    assert_eq!(
        result.map_err(numbers),
        plain(expected),
        "{header:?}, {before:?}, {target}"
    );
    assert_eq!(cursor.last(), last, "{header:?}, {before:?}, {target}");
    result
}

/// A list of ids and one of values of these lengths, each place with a number of its own.
fn lists(ids_len: usize, values_len: usize) -> (Vec<u32>, Vec<i64>) {
    let ids = (0..ids_len as u32).map(|i| !(i * 3)).collect();
    let values = (0..values_len as i64).map(|i| !(i * 5)).collect();
    (ids, values)
}

/// What a reading from an id on gives: its pairs, and whether no listed id is left.
pub type Read = Result<(Vec<(u32, i64)>, bool), Refusal>;

/// The library's lists and the reference's after a call, of which each place must be the same; those after the
/// pairs, and all where it is refused, as they were.
#[track_caller]
fn readout(
    (ids_len, values_len): (usize, usize),
    ours: impl FnOnce(&mut [u32], &mut [i64]) -> Result<Readout, Refusal>,
    theirs: impl FnOnce(&mut [u32], &mut [i64]) -> Result<reference::Readout, reference::Refusal>,
) -> Read {
    let before = lists(ids_len, values_len);
    let (mut given, mut expected) = (before.clone(), before.clone());
    let result = ours(&mut given.0, &mut given.1);
    let told = plain(theirs(&mut expected.0, &mut expected.1));
    let told = told.map(|it| (it.count, it.ended));
    assert_eq!(result.map(|it| (it.count, it.ended)).map_err(numbers), told);
    assert!(given == expected, "other places");
    let count = result.map_or(0, |it| it.count);
    let unchanged = given.0[count..] == before.0[count..] && given.1[count..] == before.1[count..];
    assert!(unchanged, "places after the pairs changed");
    let pairs = given.0.into_iter().zip(given.1).take(count);
    result.map(|it| (pairs.collect(), it.ended))
}

/// Reads from an id on, into lists of the given lengths: by the bytes and, where they open, by the opened column.
#[track_caller]
pub fn read_from(bytes: &[u8], id: u32, lens: (usize, usize)) -> Read {
    let result = readout(
        lens,
        |ids, values| signalfern::read_from(bytes, id, ids, values),
        |ids, values| reference::read_from(bytes, id, ids, values),
    );
    if let Ok(column) = Column::open(bytes) {
        let opened = readout(
            lens,
            |ids, values| column.read_from(id, ids, values),
            |ids, values| reference::read_from(bytes, id, ids, values),
        );
        assert_eq!(opened, result, "from {id}");
    }
    result
}

/// Reads from an id on by any numbers in any bytes.
#[track_caller]
pub fn read_from_in(header: Header, bytes: &[u8], id: u32, lens: (usize, usize)) -> Read {
    let column = to_reference(header);
    readout(
        lens,
        |ids, values| header.read_from_in(bytes, id, ids, values),
        |ids, values| reference::read_from_in(&column, bytes, id, ids, values),
    )
}

/// Asks for the pair with an ordinal by the bytes and, where they open, by the opened column.
#[track_caller]
pub fn pair_at(bytes: &[u8], ordinal: u64) -> Result<Option<Candidate>, Refusal> {
    let result = signalfern::pair_at(bytes, ordinal).map(candidate);
    let expected = plain(reference::pair_at(bytes, ordinal));
    assert_eq!(result.map_err(numbers), expected, "ordinal {ordinal}");
    if let Ok(column) = Column::open(bytes) {
        let opened = column.pair_at(ordinal).map(candidate);
        assert_eq!(opened, result, "ordinal {ordinal}");
    }
    result
}

/// Asks for the pair with an ordinal by any numbers in any bytes.
#[track_caller]
pub fn pair_at_in(
    header: Header,
    bytes: &[u8],
    ordinal: u64,
) -> Result<Option<Candidate>, Refusal> {
    let result = header.pair_at_in(bytes, ordinal).map(candidate);
    let expected = reference::pair_at_in(&to_reference(header), bytes, ordinal);
    assert_eq!(
        result.map_err(numbers),
        plain(expected),
        "{header:?}, ordinal {ordinal}"
    );
    result
}

/// Searches for a value by the bytes and, where they open, by the opened column; from ordinal 0 on is the same.
#[track_caller]
pub fn first_between(bytes: &[u8], low: i64, high: i64) -> Result<Option<u64>, Refusal> {
    let result = signalfern::first_between(bytes, low, high);
    let expected = plain(reference::first_between(bytes, low, high));
    assert_eq!(result.map_err(numbers), expected, "{low} to {high}");
    if let Ok(column) = Column::open(bytes) {
        assert_eq!(column.first_between(low, high), result, "{low} to {high}");
    }
    assert_eq!(first_between_from(bytes, 0, low, high), result);
    result
}

/// Searches for a value from an ordinal on, by the bytes and, where they open, by the opened column.
#[track_caller]
pub fn first_between_from(
    bytes: &[u8],
    from: u64,
    low: i64,
    high: i64,
) -> Result<Option<u64>, Refusal> {
    let result = signalfern::first_between_from(bytes, from, low, high);
    let expected = plain(reference::first_between_from(bytes, from, low, high));
    let asked = format!("from {from}: {low} to {high}");
    assert_eq!(result.map_err(numbers), expected, "{asked}");
    if let Ok(column) = Column::open(bytes) {
        let opened = column.first_between_from(from, low, high);
        assert_eq!(opened, result, "{asked}");
    }
    result
}

/// Searches for a value from an ordinal on, by any numbers in any bytes.
#[track_caller]
pub fn first_between_from_in(
    header: Header,
    bytes: &[u8],
    from: u64,
    (low, high): (i64, i64),
) -> Result<Option<u64>, Refusal> {
    let result = header.first_between_from_in(bytes, from, low, high);
    let column = to_reference(header);
    let expected = reference::first_between_from_in(&column, bytes, from, low, high);
    assert_eq!(
        result.map_err(numbers),
        plain(expected),
        "{header:?}, from {from}: {low} to {high}"
    );
    result
}

/// Searches for a value by any numbers in any bytes.
#[track_caller]
pub fn first_between_in(
    header: Header,
    bytes: &[u8],
    low: i64,
    high: i64,
) -> Result<Option<u64>, Refusal> {
    let result = header.first_between_in(bytes, low, high);
    let expected = reference::first_between_in(&to_reference(header), bytes, low, high);
    assert_eq!(
        result.map_err(numbers),
        plain(expected),
        "{header:?}, {low} to {high}"
    );
    let from_0 = first_between_from_in(header, bytes, 0, (low, high));
    assert_eq!(from_0, result, "{header:?}, {low} to {high}");
    result
}

pub fn to_reference(header: Header) -> reference::Column {
    let smallest = i128::from(header.smallest);
    let smallest_number = if smallest < 0 {
        -2 * smallest - 1
    } else {
        2 * smallest
    };
    reference::Column {
        edition: header.edition,
        count: header.count,
        power: header.power,
        id_bytes: header.id_bytes,
        jump_count: header.jump_count,
        width: header.width,
        smallest_number: smallest_number as u64,
        divisor: header.divisor,
        value_bytes: header.value_bytes,
        start: header.start,
    }
}
