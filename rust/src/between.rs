//! The first value in a range, by the directory of a column of edition 3.

use crate::{ffi, Column, Header, Refusal};

#[inline]
fn ordinal(given: ffi::Between) -> Result<Option<u64>, Refusal> {
    match given.kind {
        0 => Ok(Some(given.ordinal)),
        1 => Ok(None),
        refusal => Err(Refusal::given(refusal, given.number)),
    }
}

/// Gives the first ordinal (index in the list of pairs, from 0) with a value from `low` to `high`, both
/// included, or none; of a column of [`Edition::Runs`](crate::Edition::Runs).
///
/// A run whose smallest value is above `high`, or whose greatest is below `low`, is skipped unread. On
/// bytes that [`check`](crate::check) accepts the answer is that of a plain scan of the values. Other bytes
/// are not checked in full: what the directory says of a run is then believed, and the values of a run
/// that is not skipped are those of the look-up. For many questions to one column, open it once:
/// [`Column::first_between`].
///
/// ```
/// use signalfern::{Edition, Refusal};
///
/// let column = signalfern::write_to_vec(&[0, 2, 7], &[150, 140, 135], Edition::Runs, 9)?;
/// assert_eq!(signalfern::first_between(&column, 130, 145), Ok(Some(1)));
/// assert_eq!(signalfern::first_between(&column, 141, 149), Ok(None));
/// assert_eq!(signalfern::first_between(&column, 145, 130), Ok(None));
///
/// let other = signalfern::write_to_vec(&[0, 2, 7], &[150, 140, 135], Edition::Plain, 9)?;
/// assert_eq!(signalfern::first_between(&other, 130, 145), Err(Refusal::Edition));
/// # Ok::<(), signalfern::Error>(())
/// ```
///
/// # Errors
///
/// Those of [`Column::open`], with [`Refusal::Edition`] for any other edition; then [`Refusal::Broken`].
/// Where `low` is above `high`, the second does not come: there is no such value.
pub fn first_between(bytes: &[u8], low: i64, high: i64) -> Result<Option<u64>, Refusal> {
    ordinal(ffi::first_between(bytes, low, high))
}

/// The same question above an answer: gives the first ordinal from `from` on with a value from `low` to
/// `high`, or none; of a column of [`Edition::Runs`](crate::Edition::Runs).
///
/// From 0 on it is [`first_between`]. From an ordinal of n or more there is none. So the answer + 1, handed in
/// as the next `from`, lists them all, and the runs that are skipped unread stay unread. For many questions to
/// one column, open it once: [`Column::first_between_from`].
///
/// ```
/// use signalfern::Edition;
///
/// let column = signalfern::write_to_vec(&[0, 2, 7], &[150, 140, 135], Edition::Runs, 9)?;
/// let (mut from, mut found) = (0, Vec::new());
/// while let Some(ordinal) = signalfern::first_between_from(&column, from, 130, 145)? {
///     found.push(ordinal);
///     from = ordinal + 1;
/// }
/// assert_eq!(found, [1, 2]);
/// # Ok::<(), signalfern::Error>(())
/// ```
///
/// # Errors
///
/// Those of [`first_between`].
pub fn first_between_from(
    bytes: &[u8],
    from: u64,
    low: i64,
    high: i64,
) -> Result<Option<u64>, Refusal> {
    ordinal(ffi::first_between_from(bytes, from, low, high))
}

impl Column<'_> {
    /// Gives the first ordinal with a value from `low` to `high`, or none: the answer is that of
    /// [`first_between`](crate::first_between), sooner.
    ///
    /// ```
    /// use signalfern::{Column, Edition};
    ///
    /// let bytes = signalfern::write_to_vec(&[3, 70_000], &[-5, 10], Edition::Runs, 9)?;
    /// let column = Column::open(&bytes)?;
    /// assert_eq!(column.first_between(0, i64::MAX)?, Some(1));
    /// assert_eq!(column.first_between(-4, 9)?, None);
    /// # Ok::<(), signalfern::Error>(())
    /// ```
    ///
    /// # Errors
    ///
    /// [`Refusal::Edition`] for any other edition, then [`Refusal::Broken`], which cannot come from bytes
    /// that [`check`](crate::check) accepts.
    pub fn first_between(&self, low: i64, high: i64) -> Result<Option<u64>, Refusal> {
        ordinal(ffi::first_between_in(
            &self.numbers,
            self.bytes(),
            low,
            high,
        ))
    }

    /// Gives the first ordinal from `from` on with a value from `low` to `high`, or none: the answer is that
    /// of [`first_between_from`](crate::first_between_from), sooner.
    ///
    /// ```
    /// use signalfern::{Column, Edition};
    ///
    /// let bytes = signalfern::write_to_vec(&[3, 70_000], &[-5, 10], Edition::Runs, 9)?;
    /// let column = Column::open(&bytes)?;
    /// assert_eq!(column.first_between_from(0, -9, 99)?, Some(0));
    /// assert_eq!(column.first_between_from(1, -9, 99)?, Some(1));
    /// assert_eq!(column.first_between_from(2, -9, 99)?, None);
    /// # Ok::<(), signalfern::Error>(())
    /// ```
    ///
    /// # Errors
    ///
    /// Those of [`first_between`](Self::first_between).
    pub fn first_between_from(
        &self,
        from: u64,
        low: i64,
        high: i64,
    ) -> Result<Option<u64>, Refusal> {
        let given = ffi::first_between_from_in(&self.numbers, self.bytes(), from, low, high);
        ordinal(given)
    }
}

impl Header {
    /// Gives the first ordinal with a value from `low` to `high`, or none, in bytes that are lent for this
    /// call, taking these numbers for their header's. For the header of the same bytes, opened, the answer
    /// is that of [`first_between`](crate::first_between).
    ///
    /// # Errors
    ///
    /// [`Refusal::Edition`] where `edition` is not that of [`Edition::Runs`](crate::Edition::Runs), then
    /// those of [`look_up_in`](Self::look_up_in), but for [`Refusal::Id`].
    pub fn first_between_in(
        &self,
        bytes: &[u8],
        low: i64,
        high: i64,
    ) -> Result<Option<u64>, Refusal> {
        ordinal(ffi::first_between_in(&self.numbers(), bytes, low, high))
    }

    /// Gives the first ordinal from `from` on with a value from `low` to `high`, or none, in bytes that are
    /// lent for this call, taking these numbers for their header's. For the header of the same bytes, opened,
    /// the answer is that of [`first_between_from`](crate::first_between_from).
    ///
    /// # Errors
    ///
    /// Those of [`first_between_in`](Self::first_between_in).
    pub fn first_between_from_in(
        &self,
        bytes: &[u8],
        from: u64,
        low: i64,
        high: i64,
    ) -> Result<Option<u64>, Refusal> {
        let given = ffi::first_between_from_in(&self.numbers(), bytes, from, low, high);
        ordinal(given)
    }
}
