//! Pairs from an id on, many with each call.

use crate::{ffi, Column, Header, Refusal};

/// What [`read_from`] tells beside the pairs that it places.
#[derive(Clone, Copy, Debug, PartialEq, Eq, Hash)]
#[non_exhaustive]
#[must_use]
pub struct Readout {
    /// How many pairs were placed.
    pub count: usize,
    /// Whether no listed id is left above them.
    pub ended: bool,
}

#[inline]
fn readout(given: ffi::Readout) -> Result<Readout, Refusal> {
    match given.kind {
        ended @ (0 | 1) => Ok(Readout {
            // No more than there are places.
            count: given.count as usize,
            ended: ended == 1,
        }),
        refusal => Err(Refusal::given(refusal, given.number)),
    }
}

/// Reads the pairs from the first id at or above this one on into the first places of `ids` and `values`,
/// as many as both have. The places after them stay as they were.
///
/// Place 0 holds what [`next`](crate::next()) with a new cursor answers for the id, place 1 what it answers
/// for the id after that one, and so on, until no listed id is left, a list is full, or the next one would
/// be refused. A call from the last id + 1 goes on, so that calls one after the other give each pair once,
/// whatever the lists' lengths; on bytes that [`check`](crate::check) accepts, the whole list of pairs. With
/// lists of no places the answer still tells whether a listed id is left. For many calls in one column, open
/// it once: [`Column::read_from`].
///
/// ```
/// use signalfern::Edition;
///
/// let column = signalfern::write_to_vec(&[0, 2, 7], &[150, 140, 135], Edition::Plain, 9)?;
/// let (mut ids, mut values) = ([9; 2], [9; 2]);
/// let read = signalfern::read_from(&column, 1, &mut ids, &mut values)?;
/// assert_eq!((read.count, read.ended), (2, true));
/// assert_eq!((ids, values), ([2, 7], [140, 135]));
/// let read = signalfern::read_from(&column, 0, &mut ids, &mut values)?;
/// assert_eq!((read.count, read.ended), (2, false));
/// # Ok::<(), signalfern::Error>(())
/// ```
///
/// # Errors
///
/// [`Refusal::Id`] for an id above [`MAX_ID`](crate::MAX_ID), then those of [`Column::open`], then
/// [`Refusal::Broken`] where the very first pair is refused, with a place for it or not. Both lists then stay
/// as they were. A later pair that is refused ends the pairs, and `ended` is not told: the call that goes on
/// is refused.
pub fn read_from(
    bytes: &[u8],
    id: u32,
    ids: &mut [u32],
    values: &mut [i64],
) -> Result<Readout, Refusal> {
    readout(ffi::read_from(bytes, id, ids, values))
}

impl Column<'_> {
    /// Reads the pairs from the first id at or above this one on, as many as both lists have places:
    /// the answer is that of [`read_from`](crate::read_from()), sooner.
    ///
    /// ```
    /// use signalfern::{Column, Edition};
    ///
    /// let bytes = signalfern::write_to_vec(&[3, 70_000], &[-5, 10], Edition::Plain, 9)?;
    /// let column = Column::open(&bytes)?;
    /// let (mut ids, mut values) = ([0; 10], [0; 10]);
    /// let read = column.read_from(4, &mut ids, &mut values)?;
    /// assert_eq!((read.count, read.ended, ids[0], values[0]), (1, true, 70_000, 10));
    /// # Ok::<(), signalfern::Error>(())
    /// ```
    ///
    /// # Errors
    ///
    /// [`Refusal::Id`], then [`Refusal::Broken`], which cannot come from bytes that
    /// [`check`](crate::check) accepts. Both lists then stay as they were.
    #[inline]
    pub fn read_from(
        &self,
        id: u32,
        ids: &mut [u32],
        values: &mut [i64],
    ) -> Result<Readout, Refusal> {
        let given = ffi::read_from_in(&self.numbers, self.bytes(), id, ids, values);
        readout(given)
    }
}

impl Header {
    /// Reads the pairs from the first id at or above this one on, as many as both lists have places, in
    /// bytes that are lent for this call, taking these numbers for their header's. For the header of the
    /// same bytes, opened, the answer is that of [`read_from`](crate::read_from()).
    ///
    /// # Errors
    ///
    /// Those of [`look_up_in`](Self::look_up_in). Both lists then stay as they were.
    pub fn read_from_in(
        &self,
        bytes: &[u8],
        id: u32,
        ids: &mut [u32],
        values: &mut [i64],
    ) -> Result<Readout, Refusal> {
        readout(ffi::read_from_in(&self.numbers(), bytes, id, ids, values))
    }
}
