//! The same lists in edition 2 and in edition 1, each by the proved calls.

use signalfern::{Column, Edition};

use crate::calls::{value, Turns};
use crate::inputs::{Input, Order, Shape, Values, LOOK_UPS};
use crate::measure::{Measured, Table};
use crate::options::Effort;

/// Widths that both editions have, and some that edition 2 rounds up.
const WIDTHS: [u32; 18] = [
    1, 2, 3, 4, 7, 8, 9, 12, 16, 20, 24, 28, 32, 33, 40, 48, 56, 64,
];

/// The lines about them, in columns with blocks of every kind.
pub fn table(effort: &Effort) -> Table {
    let mut table = Table::new("width, edition 2 / 1", "edition 1");
    for width in WIDTHS {
        let of_edition =
            |edition| Input::of_edition(Shape::Mixed, effort.pairs, Values::Any(width), edition);
        let sides = [of_edition(Edition::Lucene), of_edition(Edition::Plain)];
        let widths = sides.each_ref().map(|side| opened(side).width());
        let name = format!("{} / {}", widths[0], widths[1]);
        let (pairs, runs) = (sides[0].ids.len(), effort.runs);
        table.add(&name, "write", "pair", pairs, write(&sides, runs));
        table.add(&name, "check", "pair", pairs, check(&sides, runs));
        table.add(&name, "read", "pair", pairs, read(&sides, runs));
        let ids = sides[0].hits(effort.look_ups, Order::Random);
        let measured = by_bytes(&sides, &ids, runs);
        let what = "look-up by bytes, random hits";
        table.add(&name, what, "look-up", LOOK_UPS, measured);
        let measured = by_column(&sides, &ids, runs);
        let what = "look-up by opened column, random hits";
        table.add(&name, what, "look-up", LOOK_UPS, measured);
    }
    table
}

/// The same list in two editions, of which the second is 1.
pub type Sides = [Input; 2];

fn opened(side: &Input) -> Column<'_> {
    Column::open(&side.bytes).expect("a sound column")
}

pub fn write([two, one]: &Sides, runs: usize) -> Measured {
    let mut outs = [two, one].map(|side| vec![1; side.bytes.len()]);
    let write = |side: &Input, out: &mut [u8]| {
        let written = signalfern::write(&side.ids, &side.values, side.edition, 9, out);
        written.map_or(0, |len| len as u64)
    };
    let measured = Measured::of(
        runs,
        &mut outs,
        |outs| write(two, &mut outs[0]),
        |outs| write(one, &mut outs[1]),
    );
    assert!(outs[0] == two.bytes && outs[1] == one.bytes);
    measured
}

pub fn check([two, one]: &Sides, runs: usize) -> Measured {
    Measured::of(
        runs,
        &mut (),
        |()| signalfern::check(&two.bytes).unwrap_or(0),
        |()| signalfern::check(&one.bytes).unwrap_or(0),
    )
}

pub fn read([two, one]: &Sides, runs: usize) -> Measured {
    let pairs = two.ids.len();
    let (mut ids, mut values) = (vec![1; pairs], vec![1; pairs]);
    Measured::of(
        runs,
        &mut (&mut ids, &mut values),
        |(ids, values)| signalfern::read(&two.bytes, ids, values).map_or(0, |n| n as u64),
        |(ids, values)| signalfern::read(&one.bytes, ids, values).map_or(0, |n| n as u64),
    )
}

pub fn by_bytes([two, one]: &Sides, ids: &[u32], runs: usize) -> Measured {
    let [two, one] = [&two.bytes, &one.bytes];
    assert!((ids.iter())
        .all(|&id| { value(signalfern::look_up(two, id)) == value(signalfern::look_up(one, id)) }));
    Measured::of(
        runs,
        &mut Turns::new(ids),
        |turns| turns.sum(|id| value(signalfern::look_up(two, id))),
        |turns| turns.sum(|id| value(signalfern::look_up(one, id))),
    )
}

pub fn by_column([two, one]: &Sides, ids: &[u32], runs: usize) -> Measured {
    let [two, one] = [opened(two), opened(one)];
    Measured::of(
        runs,
        &mut Turns::new(ids),
        |turns| turns.sum(|id| value(two.look_up(id))),
        |turns| turns.sum(|id| value(one.look_up(id))),
    )
}
