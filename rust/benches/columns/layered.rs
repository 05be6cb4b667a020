//! The look-up with a correction on top, a page of them, and the reading of both columns, each beside the calls on one
//! column that a caller would put together.

use signalfern::{Column, Edition, Layer, Layered};

use crate::calls::{value, Turns};
use crate::inputs::{Input, Order, Shape, Values, LOOK_UPS};
use crate::measure::{Measured, Table};
use crate::options::Effort;

/// Every fiftieth id of the machine column has another value in the correction.
const CORRECTED: usize = 50;

/// The lines about it: ids of the correction, of the machine column alone, and of neither.
pub fn table(effort: &Effort) -> Table {
    let mut table = Table::new("ids", "other");
    let machine = Input::new(Shape::Mixed, effort.pairs, Values::Any(12));
    let ids: Vec<u32> = machine.ids.iter().copied().step_by(CORRECTED).collect();
    let values: Vec<i64> = (0..ids.len() as i64).map(|index| index % 100).collect();
    let correction =
        signalfern::write_to_vec(&ids, &values, Edition::Plain, 9).expect("a list of pairs");
    let [below, above] =
        [&machine.bytes, &correction].map(|bytes| Column::open(bytes).expect("a sound column"));
    let layers = Layered::new(below, above);

    let hits = machine.hits(effort.look_ups, Order::Random);
    let is_corrected = |id: &u32| ids.binary_search(id).is_ok();
    let alone: Vec<u32> = hits
        .iter()
        .copied()
        .filter(|id| !is_corrected(id))
        .collect();
    let on_top: Vec<u32> = ids.iter().copied().cycle().take(effort.look_ups).collect();
    let misses = machine.misses(effort.look_ups, Order::Random);
    for (name, asked) in [
        ("corrected", on_top),
        ("not corrected", alone),
        ("none", misses),
    ] {
        let what = "layered look-up by opened columns, beside one or two look-ups";
        let measured = by_columns(&layers, below, above, &asked, effort.runs);
        table.add(name, what, "look-up", LOOK_UPS, measured);
        let what = "layered page by opened columns, beside layered look-ups";
        let measured = by_pages(&layers, &asked, effort.runs);
        table.add(name, what, "look-up", LOOK_UPS, measured);
    }
    let what = "layered reading by opened columns, beside the readings of each merged";
    let measured = by_readings(&layers, below, above, effort.runs);
    table.add("all pairs", what, "pair", machine.ids.len(), measured);
    table
}

/// Pairs that a call reads.
const ROOM: usize = 4096;

/// The lists of a page or a reading.
struct Lists {
    ids: Vec<u32>,
    ordinals: Vec<u64>,
    values: Vec<i64>,
    kinds: Vec<u8>,
    columns: Vec<u8>,
}

impl Lists {
    fn new() -> Self {
        Self {
            ids: vec![0; ROOM],
            ordinals: vec![0; ROOM],
            values: vec![0; ROOM],
            kinds: vec![0; ROOM],
            columns: vec![0; ROOM],
        }
    }
}

fn by_pages(layers: &Layered<Column>, asked: &[u32], runs: usize) -> Measured {
    let layered = |id| match layers.look_up(id) {
        Ok(answer) => answer.value().map_or(0, |value| value as u64),
        Err(refused) => refused.refusal.number(),
    };
    Measured::of(
        runs,
        &mut (Turns::new(asked), Lists::new()),
        |(turns, lists)| {
            let (ordinals, values) = (&mut lists.ordinals, &mut lists.values);
            let (kinds, columns) = (&mut lists.kinds, &mut lists.columns);
            let page = layers.look_up_page(turns.next(), ordinals, values, kinds, columns);
            page.map_or(0, |page| page.words(Layer::Machine))
        },
        |(turns, _)| turns.sum(layered),
    )
}

/// All pairs, some with each call; and the sum of their values.
fn by_readings(layers: &Layered<Column>, below: Column, above: Column, runs: usize) -> Measured {
    let together = |lists: &mut Lists| {
        let (mut from, mut sum) = (0, 0_u64);
        loop {
            let (ids, values) = (&mut lists.ids, &mut lists.values);
            let read = layers.read_from(from, ids, values, &mut lists.columns);
            let read = read.expect("sound columns");
            sum = added(sum, &values[..read.count]);
            match ids[..read.count].last() {
                Some(last) if !read.ended => from = last + 1,
                _ => return sum,
            }
        }
    };
    let merged = |_: &mut Lists| {
        let (mut below, mut above) = (Walk::of(below), Walk::of(above));
        let mut sum = 0_u64;
        loop {
            let value = match (below.pair(), above.pair()) {
                (None, None) => return sum,
                (Some(pair), None) => {
                    below.taken += 1;
                    pair.1
                }
                (Some(pair), Some(top)) if pair.0 < top.0 => {
                    below.taken += 1;
                    pair.1
                }
                (under, Some(top)) => {
                    below.taken += usize::from(under.is_some_and(|pair| pair.0 == top.0));
                    above.taken += 1;
                    top.1
                }
            };
            sum = sum.wrapping_add(value as u64);
        }
    };
    let lists = &mut Lists::new();
    assert_eq!(together(lists), merged(lists));
    Measured::of(runs, lists, together, merged)
}

fn added(sum: u64, values: &[i64]) -> u64 {
    let add = |sum: u64, value: &i64| sum.wrapping_add(*value as u64);
    values.iter().fold(sum, add)
}

/// The pairs of one column, some with each call.
struct Walk<'a> {
    column: Column<'a>,
    ids: Vec<u32>,
    values: Vec<i64>,
    taken: usize,
    held: usize,
    from: Option<u32>,
}

impl<'a> Walk<'a> {
    fn of(column: Column<'a>) -> Self {
        Self {
            column,
            ids: vec![0; ROOM],
            values: vec![0; ROOM],
            taken: 0,
            held: 0,
            from: Some(0),
        }
    }

    fn pair(&mut self) -> Option<(u32, i64)> {
        if self.taken == self.held {
            let from = self.from.take()?;
            let read = self.column.read_from(from, &mut self.ids, &mut self.values);
            let read = read.expect("a sound column");
            (self.taken, self.held) = (0, read.count);
            let last = self.ids[..read.count].last().filter(|_| !read.ended);
            self.from = last.map(|last| last + 1);
        }
        (self.taken < self.held).then(|| (self.ids[self.taken], self.values[self.taken]))
    }
}

fn by_columns(
    layers: &Layered<Column>,
    below: Column,
    above: Column,
    asked: &[u32],
    runs: usize,
) -> Measured {
    let layered = |id| match layers.look_up(id) {
        Ok(answer) => answer.value().map_or(0, |value| value as u64),
        Err(refused) => refused.refusal.number(),
    };
    let in_turn = |id| match above.look_up(id) {
        Ok(signalfern::Answer::Absent { .. }) => value(below.look_up(id)),
        answer => value(answer),
    };
    Measured::of(
        runs,
        &mut Turns::new(asked),
        |turns| turns.sum(layered),
        |turns| turns.sum(in_turn),
    )
}
