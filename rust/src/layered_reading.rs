//! Pairs from an id on of a machine column with a correction on top, many with each call.

use crate::{ffi, Column, Layered, LayeredRefusal, Readout};

#[inline]
fn readout(given: ffi::LayeredReadout) -> Result<Readout, LayeredRefusal> {
    match given.kind {
        ended @ (0 | 1) => Ok(Readout {
            // No more than there are places.
            count: given.count as usize,
            ended: ended == 1,
        }),
        refusal => Err(LayeredRefusal::given(given.column, refusal, given.number)),
    }
}

/// Reads the pairs of a machine column with a correction on top from an id on, in the order of ids, into the
/// first places of the three lists, as many as all have. `columns` has the [number](crate::Layer::number) of
/// the column that each pair came from: the correction's, where both hold the id. The places after the pairs
/// stay as they were.
///
/// Each place holds the sooner of the two columns' next pairs, as [`next`](crate::next()) with a new cursor
/// answers for the id after the place before it. It ends as [`read_from`](crate::read_from()) does: where
/// neither column has a pair left, a list is full, or the next pair of either column would be refused. A pair
/// that cannot be read is not passed over, even where the other column's is nearer. A call from the last
/// id + 1 goes on. For many calls in the same two, open them once: [`Layered`].
///
/// ```
/// use signalfern::Edition;
///
/// let machine = signalfern::write_to_vec(&[0, 2, 7], &[150, 140, 135], Edition::Plain, 9)?;
/// let correction = signalfern::write_to_vec(&[2, 4], &[0, 255], Edition::Plain, 9)?;
/// let (mut ids, mut values, mut columns) = ([9; 4], [9; 4], [9; 4]);
/// let read = signalfern::read_layered_from(&machine, &correction, 1, &mut ids, &mut values, &mut columns)?;
/// assert_eq!((read.count, read.ended), (3, true));
/// assert_eq!((ids, values, columns), ([2, 4, 7, 9], [0, 255, 135, 9], [1, 1, 0, 9]));
/// # Ok::<(), signalfern::Error>(())
/// ```
///
/// # Errors
///
/// [`Refusal::Id`](crate::Refusal::Id), as the correction's; then those of
/// [`Column::open`] and [`Refusal::Broken`](crate::Refusal::Broken) by the correction, then the same by the
/// machine column, where the very first pair is refused. All lists then stay as they were. A later pair that is
/// refused ends the pairs, and `ended` is not told: the call that goes on is refused.
pub fn read_layered_from(
    machine: &[u8],
    correction: &[u8],
    id: u32,
    ids: &mut [u32],
    values: &mut [i64],
    columns: &mut [u8],
) -> Result<Readout, LayeredRefusal> {
    readout(ffi::read_layered_from(
        machine, correction, id, ids, values, columns,
    ))
}

impl Layered<Column<'_>> {
    /// Reads the pairs of both columns from an id on, as many as all three lists have places: the answer is that
    /// of [`read_layered_from`], sooner.
    ///
    /// # Errors
    ///
    /// [`Refusal::Id`](crate::Refusal::Id), as the correction's, then [`Refusal::Broken`](crate::Refusal::Broken)
    /// by the correction, then by the machine column. Bytes that [`check`](crate::check) accepts are never
    /// broken. All lists then stay as they were.
    #[inline]
    pub fn read_from(
        &self,
        id: u32,
        ids: &mut [u32],
        values: &mut [i64],
        columns: &mut [u8],
    ) -> Result<Readout, LayeredRefusal> {
        let (machine, correction) = (&self.machine, &self.correction);
        readout(ffi::read_layered_from_in(
            (&machine.numbers, machine.bytes()),
            (&correction.numbers, correction.bytes()),
            id,
            ids,
            values,
            columns,
        ))
    }
}
