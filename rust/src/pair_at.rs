//! The pair with an ordinal: the look-up's steps the other way round.

use crate::{ffi, Candidate, Column, Header, Refusal};

#[inline]
fn pair(given: ffi::Pair) -> Result<Option<Candidate>, Refusal> {
    match given.kind {
        0 => Ok(Some(Candidate {
            // An id, so it has 31 bits.
            id: given.id as u32,
            ordinal: given.ordinal,
            value: given.value,
        })),
        1 => Ok(None),
        refusal => Err(Refusal::given(refusal, given.number)),
    }
}

/// Gives the pair with this ordinal (index in the list of pairs, from 0), or none for an ordinal of n or
/// more.
///
/// The jump entries are halved for the block, and a dense block's ranks for the stride. On bytes that
/// [`check`](crate::check) accepts the answer is that of the list of pairs. Other bytes are not checked in
/// full: the steps then fix the answer. For many ordinals in one column, open it once: [`Column::pair_at`].
///
/// ```
/// use signalfern::Edition;
///
/// let column = signalfern::write_to_vec(&[0, 2, 7], &[150, 140, 135], Edition::Plain, 9)?;
/// let pair = signalfern::pair_at(&column, 1)?.expect("there are three");
/// assert_eq!((pair.id, pair.ordinal, pair.value), (2, 1, 140));
/// assert_eq!(signalfern::pair_at(&column, 3)?, None);
/// # Ok::<(), signalfern::Error>(())
/// ```
///
/// # Errors
///
/// Those of [`Column::open`], then [`Refusal::Broken`].
pub fn pair_at(bytes: &[u8], ordinal: u64) -> Result<Option<Candidate>, Refusal> {
    pair(ffi::pair_at(bytes, ordinal))
}

impl Column<'_> {
    /// Gives the pair with this ordinal, or none: the answer is that of [`pair_at`](crate::pair_at()),
    /// sooner.
    ///
    /// ```
    /// use signalfern::{Column, Edition};
    ///
    /// let bytes = signalfern::write_to_vec(&[3, 70_000], &[-5, 10], Edition::Plain, 9)?;
    /// let column = Column::open(&bytes)?;
    /// assert_eq!(column.pair_at(1)?.map(|pair| (pair.id, pair.value)), Some((70_000, 10)));
    /// assert_eq!(column.pair_at(2)?, None);
    /// # Ok::<(), signalfern::Error>(())
    /// ```
    ///
    /// # Errors
    ///
    /// [`Refusal::Broken`], which cannot come from bytes that [`check`](crate::check) accepts.
    #[inline]
    pub fn pair_at(&self, ordinal: u64) -> Result<Option<Candidate>, Refusal> {
        pair(ffi::pair_at_in(&self.numbers, self.bytes(), ordinal))
    }
}

impl Header {
    /// Gives the pair with this ordinal, or none, in bytes that are lent for this call, taking these
    /// numbers for their header's. For the header of the same bytes, opened, the answer is that of
    /// [`pair_at`](crate::pair_at()).
    ///
    /// # Errors
    ///
    /// Those of [`look_up_in`](Self::look_up_in), but for [`Refusal::Id`].
    pub fn pair_at_in(&self, bytes: &[u8], ordinal: u64) -> Result<Option<Candidate>, Refusal> {
        pair(ffi::pair_at_in(&self.numbers(), bytes, ordinal))
    }
}
