//! A page of ids in one call, beside the same look-ups by an opened column, and beside the reference's
//! page.

use std::hint::black_box;

use signalfern::Column;
use signalfern_reference as reference;

use crate::calls::{value, Turns};
use crate::inputs::{Input, Order, Shape, Values, LOOK_UPS};
use crate::measure::{Measured, Table};
use crate::options::Effort;

/// The lines about it: a page is as long as a run.
pub fn table(effort: &Effort) -> Table {
    let mut table = Table::new("column", "other");
    for (name, shape) in Shape::EACH {
        let input = Input::new(shape, effort.pairs, Values::Any(12));
        for order in [Order::Random, Order::Ascending] {
            let hits = input.hits(effort.look_ups, order);
            let misses = input.misses(effort.look_ups, order);
            for (kind, ids) in [("hits", hits), ("misses", misses)] {
                let what = format!("page, {} {kind}, beside", order.name());
                let measured = beside_look_ups(&input.bytes, &ids, effort.runs);
                let beside = format!("{what} look-ups by an opened column");
                table.add(name, &beside, "look-up", LOOK_UPS, measured);
                let measured = beside_reference(&input.bytes, &ids, effort.runs);
                let beside = format!("{what} the reference's");
                table.add(name, &beside, "look-up", LOOK_UPS, measured);
            }
        }
    }
    table
}

/// The lists of a page.
struct Lists {
    ordinals: [u64; LOOK_UPS],
    values: [i64; LOOK_UPS],
    kinds: [u8; LOOK_UPS],
}

impl Lists {
    const NEW: Self = Self {
        ordinals: [1; LOOK_UPS],
        values: [1; LOOK_UPS],
        kinds: [9; LOOK_UPS],
    };

    /// By the proved call; gives its words.
    fn fill(&mut self, bytes: &[u8], ids: &[u32]) -> u64 {
        let (ordinals, values, kinds) = (&mut self.ordinals, &mut self.values, &mut self.kinds);
        let page = signalfern::look_up_page(bytes, ids, ordinals, values, kinds);
        page.map_or(0, |page| page.words())
    }

    #[inline(never)]
    fn fill_by_reference(&mut self, bytes: &[u8], ids: &[u32]) -> u64 {
        let (ordinals, values, kinds) = (&mut self.ordinals, &mut self.values, &mut self.kinds);
        reference::look_up_page(black_box(bytes), ids, ordinals, values, kinds).unwrap_or(0)
    }
}

fn beside_look_ups(bytes: &[u8], ids: &[u32], runs: usize) -> Measured {
    let column = Column::open(bytes).expect("a sound column");
    Measured::of(
        runs,
        &mut (Turns::new(ids), Lists::NEW),
        |(turns, lists)| lists.fill(bytes, turns.next()),
        |(turns, _)| turns.sum(|id| value(column.look_up(id))),
    )
}

fn beside_reference(bytes: &[u8], ids: &[u32], runs: usize) -> Measured {
    for ids in ids.chunks(LOOK_UPS) {
        let (mut ours, mut theirs) = (Lists::NEW, Lists::NEW);
        assert_eq!(ours.fill(bytes, ids), theirs.fill_by_reference(bytes, ids));
        let lists = |lists: &Lists| (lists.ordinals, lists.values, lists.kinds);
        assert!(lists(&ours) == lists(&theirs));
    }
    Measured::of(
        runs,
        &mut (Turns::new(ids), Lists::NEW),
        |(turns, lists)| lists.fill(bytes, turns.next()),
        |(turns, lists)| lists.fill_by_reference(bytes, turns.next()),
    )
}
