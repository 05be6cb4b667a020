//! A checked correction on top of a checked machine column: one sorted list of pairs, by the proved calls on
//! two columns. Nothing is merged or decoded here.

use std::fmt;
use std::iter::FusedIterator;

use crate::checked::{within, Checked, END};
use crate::{Column, Error, Layer, Layered, Readout};

/// Ids that go into one call where the lists are made here.
const IDS: usize = 1000;

/// How many pairs the first call reads, and how many one reads at most. Each reads four times as many as the
/// one before.
const FIRST: usize = 16;
const ROOM: usize = 256;

impl<'a> Layered<Checked<'a>> {
    /// The value of an id: the correction's, if it holds the id, else the machine column's, if that does. An id
    /// above [`MAX_ID`](crate::MAX_ID) has none.
    #[inline]
    #[must_use]
    pub fn get(&self, id: u32) -> Option<i64> {
        self.found(id).map(|found| found.0)
    }

    /// The column that the value of an id comes from, if it is listed.
    #[must_use]
    pub fn layer_of(&self, id: u32) -> Option<Layer> {
        self.found(id).map(|found| found.1)
    }

    #[inline]
    fn found(&self, id: u32) -> Option<(i64, Layer)> {
        let answer = within(self.opened().look_up(id).map_err(|refused| refused.refusal))?;
        answer.value().zip(answer.layer())
    }

    /// The values of many ids, in their order, as [`get`](Self::get) gives each: page by page, by the proved
    /// [`look_up_layered_page`](crate::look_up_layered_page).
    ///
    /// # Errors
    ///
    /// [`Error::Memory`].
    pub fn get_page(&self, ids: &[u32]) -> Result<Vec<Option<i64>>, Error> {
        let mut answers = Vec::new();
        answers.try_reserve_exact(ids.len())?;
        let (mut ordinals, mut values) = ([0; IDS], [0; IDS]);
        let (mut kinds, mut columns) = ([0; IDS], [0; IDS]);
        let both = self.opened();
        for ids in ids.chunks(IDS) {
            let page =
                both.look_up_page(ids, &mut ordinals, &mut values, &mut kinds, &mut columns)?;
            answers.extend(page.iter().map(|answer| answer.value()));
        }
        Ok(answers)
    }

    /// All pairs in order, each with the column that it comes from, in bounded memory.
    pub fn iter(&self) -> LayeredPairs<'a> {
        self.iter_from(0)
    }

    /// The pairs from the first id at or above this one on, each with the column that it comes from, in bounded
    /// memory.
    pub fn iter_from(&self, id: u32) -> LayeredPairs<'a> {
        LayeredPairs::of(*self, id)
    }

    /// The pairs from an id on, as many as all three lists have places; none from an id above the limit.
    fn read_from(
        &self,
        id: u32,
        ids: &mut [u32],
        values: &mut [i64],
        columns: &mut [u8],
    ) -> Readout {
        let read = self.opened().read_from(id, ids, values, columns);
        within(read.map_err(|refused| refused.refusal)).unwrap_or(Readout {
            count: 0,
            ended: true,
        })
    }

    /// The two columns, for look-ups that tell the ordinal and the words.
    #[inline]
    pub const fn opened(&self) -> Layered<Column<'a>> {
        Layered::new(self.machine.column(), self.correction.column())
    }
}

impl<'a> IntoIterator for Layered<Checked<'a>> {
    type Item = (u32, i64, Layer);
    type IntoIter = LayeredPairs<'a>;

    fn into_iter(self) -> LayeredPairs<'a> {
        self.iter()
    }
}

impl<'a> IntoIterator for &Layered<Checked<'a>> {
    type Item = (u32, i64, Layer);
    type IntoIter = LayeredPairs<'a>;

    fn into_iter(self) -> LayeredPairs<'a> {
        self.iter()
    }
}

/// The pairs of a machine column with a correction on top in order, each with the column that it comes from: see
/// [`Layered::iter`] and [`Layered::iter_from`].
///
/// Each is one that the proved [`read_layered_from`](crate::read_layered_from) gave: the walk holds a small
/// buffer of them.
#[derive(Clone)]
#[must_use]
pub struct LayeredPairs<'a> {
    layers: Layered<Checked<'a>>,
    ids: [u32; ROOM],
    values: [i64; ROOM],
    columns: [u8; ROOM],
    /// The place of the next pair in the buffer, and how many pairs are there.
    taken: usize,
    held: usize,
    /// How many pairs the next call reads.
    room: usize,
    /// The id that it reads from; [`END`] where none is left.
    from: u32,
}

impl<'a> LayeredPairs<'a> {
    fn of(layers: Layered<Checked<'a>>, from: u32) -> Self {
        Self {
            layers,
            ids: [0; ROOM],
            values: [0; ROOM],
            columns: [0; ROOM],
            taken: 0,
            held: 0,
            room: FIRST,
            from: from.min(END),
        }
    }

    /// Reads on, and tells whether there was a pair.
    #[inline(never)]
    fn fill(&mut self) -> bool {
        if self.from == END {
            return false;
        }
        let room = self.room;
        let (ids, values) = (&mut self.ids[..room], &mut self.values[..room]);
        let columns = &mut self.columns[..room];
        let read = self.layers.read_from(self.from, ids, values, columns);
        self.from = match ids[..read.count].last() {
            Some(last) if !read.ended => last + 1,
            _ => END,
        };
        (self.taken, self.held) = (0, read.count);
        self.room = (4 * room).min(ROOM);
        self.held > 0
    }

    /// How many pairs one of the columns has after those of the buffer.
    fn after(&self, layer: Layer) -> usize {
        let column = self.layers.column(layer);
        column.len() - column.ids_below(self.from)
    }
}

impl Iterator for LayeredPairs<'_> {
    type Item = (u32, i64, Layer);

    #[inline]
    fn next(&mut self) -> Option<(u32, i64, Layer)> {
        if self.taken == self.held && !self.fill() {
            return None;
        }
        let at = self.taken;
        self.taken += 1;
        let layer = Layer::given(u64::from(self.columns[at]));
        Some((self.ids[at], self.values[at], layer))
    }

    /// How many ids both columns hold is not known before they are read.
    fn size_hint(&self) -> (usize, Option<usize>) {
        let buffered = self.held - self.taken;
        let (below, above) = (self.after(Layer::Machine), self.after(Layer::Correction));
        (
            buffered + below.max(above),
            (buffered + below).checked_add(above),
        )
    }
}

impl FusedIterator for LayeredPairs<'_> {}

impl fmt::Debug for LayeredPairs<'_> {
    fn fmt(&self, f: &mut fmt::Formatter<'_>) -> fmt::Result {
        let (least, most) = self.size_hint();
        f.debug_struct("LayeredPairs")
            .field("least", &least)
            .field("most", &most)
            .finish()
    }
}
