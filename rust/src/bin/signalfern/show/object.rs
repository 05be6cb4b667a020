//! What `show` draws, as members of an object.

use super::blocks::rows_of;
use super::parts;
use crate::blocks::Section;
use crate::codes::Coded;
use crate::header::{smallest, Header};
use crate::json::Object;
use crate::packing::Packing;
use crate::runs::Run;

/// What the header's numbers are called here, in order.
const NAMES: [&str; 9] = [
    "edition",
    "pairs",
    "rank_power",
    "id_section",
    "jump_entries",
    "width",
    "smallest",
    "divisor",
    "value_section",
];

/// Puts what can be made out of a column into an object.
pub fn of(bytes: &[u8], object: Object) -> Object {
    let (numbers, header) = match Header::parse(bytes) {
        Ok(header) => (header.numbers().to_vec(), Some(header)),
        Err(unreadable) => (unreadable.numbers, None),
    };
    let named = NAMES.iter().zip(numbers);
    let object = object.object(
        "header",
        named.fold(Object::new(), |object, (name, number)| match *name {
            "smallest" => object.long(name, smallest(number)),
            name => object.long(name, number),
        }),
    );
    let known = header.filter(|it| it.packing().is_some() && it.broken_rule().is_none());
    match known {
        Some(header) => sections(&header, bytes, object),
        None => object,
    }
}

fn sections(header: &Header, bytes: &[u8], object: Object) -> Object {
    let (rows, sizes) = rows_of(&Section::of(header, bytes));
    let object = object.objects("blocks", rows.iter().map(|row| row.object()));
    let object = match header.packing() {
        Some(Packing::Runs) => {
            let runs = Run::all(header.count, header.values_in(bytes));
            object.objects("runs", runs.map(|run| run_object(&run)))
        }
        Some(Packing::Table) => {
            let coded = Coded::of(header, bytes);
            let entries = (0_u64..).zip(coded.table.iter().zip(coded.uses().0));
            let entry = |(code, (value, pairs)): (u64, (&i64, u64))| {
                let object = Object::new().number("code", code).long("value", *value);
                object.number("pairs", pairs)
            };
            object.objects("table", entries.map(entry))
        }
        _ => object,
    };
    let part = |(name, bytes): (&str, u128)| {
        Object::new()
            .text("part", name)
            .number("bytes", bytes as i128)
    };
    object.objects("parts", parts(header, &sizes).into_iter().map(part))
}

fn run_object(run: &Run) -> Object {
    let object = Object::new().long("ordinal", run.first());
    (object
        .long("smallest", run.smallest)
        .long("greatest", run.greatest))
    .long("start", run.start)
    .number("width", run.width)
}
