//! The pairs of a checked column, one after the other, by the proved reading from an id on: some pairs with
//! each call, into a buffer. Nothing is decoded here.

use std::fmt;
use std::iter::FusedIterator;

use crate::checked::Checked;

/// How many pairs the first call reads, and how many one reads at most. Each reads twice as many as the one
/// before: whoever takes a few pairs waits for few, and over many the cost of a call is spread. (In a dense
/// block without ranks a call counts from the block's start on.)
const FIRST: usize = 4;
const ROOM: usize = 4096;

/// From so many pairs on it is quicker to go to an ordinal than to read on.
const FAR: usize = 256;

/// The pairs of one call. The first ones stand in the walk itself; lists for more are made when more are read.
#[derive(Clone)]
struct Buffer {
    first_ids: [u32; FIRST],
    first_values: [i64; FIRST],
    ids: Vec<u32>,
    values: Vec<i64>,
}

impl Buffer {
    const fn new() -> Self {
        Self {
            first_ids: [0; FIRST],
            first_values: [0; FIRST],
            ids: Vec::new(),
            values: Vec::new(),
        }
    }

    /// Lists with room for so many pairs.
    fn lists(&mut self, room: usize) -> (&mut [u32], &mut [i64]) {
        if room <= FIRST {
            self.ids.clear();
            return (&mut self.first_ids[..room], &mut self.first_values[..room]);
        }
        self.ids.resize(room, 0);
        self.values.resize(room, 0);
        (&mut self.ids, &mut self.values)
    }

    /// The pair at a place of the lists that were asked for last.
    #[inline]
    fn pair(&self, place: usize) -> (u32, i64) {
        match self.ids.get(place) {
            Some(&id) => (id, self.values[place]),
            None => (self.first_ids[place], self.first_values[place]),
        }
    }
}

/// The pairs of a [`Checked`] column in order, from [`Checked::iter`], [`Checked::iter_from`] or
/// [`Checked::range`].
///
/// Each is one that the proved [`read_from`](crate::read_from()) gave: the walk holds a buffer of some of them,
/// at most 4,096, which grows as it goes on.
/// [`nth`](Iterator::nth), and with it `skip` and `step_by`, goes over many pairs by their ordinals, with the
/// proved [`pair_at`](crate::pair_at()), and so does [`last`](Iterator::last). What is left is counted when it
/// is asked for, by [`next`](crate::next()).
#[derive(Clone)]
#[must_use]
pub struct Pairs<'a> {
    checked: Checked<'a>,
    buffer: Buffer,
    /// The place of the next pair in the buffer, and how many pairs are there.
    taken: usize,
    held: usize,
    /// How many pairs the next call reads.
    room: usize,
    /// The id that it reads from, and the one that the walk ends before.
    from: u32,
    end: u32,
}

impl<'a> Pairs<'a> {
    /// The pairs with ids from `from` to below `end`.
    pub(crate) fn of(checked: Checked<'a>, from: u32, end: u32) -> Self {
        Self {
            checked,
            buffer: Buffer::new(),
            taken: 0,
            held: 0,
            room: FIRST,
            from: from.min(end),
            end,
        }
    }

    /// Reads on, and tells whether there was a pair.
    #[inline(never)]
    fn fill(&mut self) -> bool {
        if self.from == self.end {
            return false;
        }
        let (ids, values) = self.buffer.lists(self.room);
        let read = self.checked.read_from(self.from, ids, values);
        let last = ids[..read.count].last();
        let is_over = read.ended || last.is_some_and(|&last| last >= self.end - 1);
        self.from = match last {
            Some(last) if !is_over => last + 1,
            _ => self.end,
        };
        self.taken = 0;
        self.held = ids[..read.count].partition_point(|&id| id < self.end);
        self.room = (2 * self.room).min(ROOM);
        self.held > 0
    }

    /// How many pairs the buffer has left.
    #[inline]
    fn buffered(&self) -> usize {
        self.held - self.taken
    }

    /// How many pairs come after those of the buffer.
    fn after(&self) -> usize {
        self.checked.ids_below(self.end) - self.checked.ids_below(self.from)
    }
}

impl Iterator for Pairs<'_> {
    type Item = (u32, i64);

    #[inline]
    fn next(&mut self) -> Option<(u32, i64)> {
        if self.taken == self.held && !self.fill() {
            return None;
        }
        let pair = self.buffer.pair(self.taken);
        self.taken += 1;
        Some(pair)
    }

    fn size_hint(&self) -> (usize, Option<usize>) {
        let left = self.buffered() + self.after();
        (left, Some(left))
    }

    fn count(self) -> usize {
        self.len()
    }

    /// Over many pairs by their ordinals, and over few by reading on. After many it reads few again.
    fn nth(&mut self, mut n: usize) -> Option<(u32, i64)> {
        while n >= self.buffered() {
            n -= self.buffered();
            self.taken = self.held;
            if n >= FAR {
                let pair = self.checked.nth(self.checked.ids_below(self.from) + n);
                let pair = pair.filter(|pair| pair.0 < self.end);
                self.from = pair.map_or(self.end, |pair| pair.0 + 1);
                self.room = FIRST;
                return pair;
            }
            if !self.fill() {
                return None;
            }
        }
        self.taken += n;
        self.next()
    }

    fn last(mut self) -> Option<(u32, i64)> {
        self.nth(self.len().checked_sub(1)?)
    }
}

impl ExactSizeIterator for Pairs<'_> {}
impl FusedIterator for Pairs<'_> {}

impl fmt::Debug for Pairs<'_> {
    fn fmt(&self, f: &mut fmt::Formatter<'_>) -> fmt::Result {
        f.debug_struct("Pairs").field("left", &self.len()).finish()
    }
}
