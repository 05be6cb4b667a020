//! A column that the check accepted.

use std::fmt;
use std::ops::{Bound, RangeBounds};

use crate::calls::check;
use crate::pairs::Pairs;
use crate::{Column, Cursor, Readout, Refusal, MAX_ID};

/// What all ids are below.
pub(crate) const END: u32 = MAX_ID + 1;

/// A column that [`check`] accepted: a sorted list of pairs that can be asked and walked over.
///
/// Only the check makes one, and it borrows the bytes, so what is asked here is the column of
/// exactly one list of pairs: an id has its value or none, and there is nothing left to refuse.
///
/// ```
/// use signalfern::{Checked, Edition, Refusal};
///
/// let mut bytes = signalfern::write_to_vec(&[0, 2, 7], &[150, 140, 135], Edition::Plain, 9)?;
/// let scores = Checked::new(&bytes)?;
/// assert_eq!((scores.get(7), scores.get(5)), (Some(135), None));
/// assert_eq!(scores.iter_from(1).collect::<Vec<_>>(), [(2, 140), (7, 135)]);
/// assert_eq!((scores.first(), scores.nth(1), scores.last()), (Some((0, 150)), Some((2, 140)), Some((7, 135))));
///
/// bytes[20] ^= 1;
/// assert_eq!(Checked::new(&bytes).unwrap_err(), Refusal::Damaged);
/// # Ok::<(), signalfern::Error>(())
/// ```
///
/// The check finds everything that is not the column of some list. It does not find a column that
/// was exchanged for another, nor a value changed into another that fits as well: the format has no
/// checksum.
#[derive(Clone, Copy)]
#[must_use]
pub struct Checked<'a> {
    column: Column<'a>,
}

impl<'a> Checked<'a> {
    /// Checks the bytes in full. The time grows with the bytes and not with the pairs.
    ///
    /// # Errors
    ///
    /// Those of [`check`].
    pub fn new(bytes: &'a [u8]) -> Result<Self, Refusal> {
        check(bytes)?;
        Ok(Self {
            column: Column::open(bytes)?,
        })
    }

    /// The value of an id, if it is listed. An id above [`MAX_ID`](crate::MAX_ID) never is.
    #[inline]
    #[must_use]
    pub fn get(&self, id: u32) -> Option<i64> {
        within(self.column.look_up(id))?.value()
    }

    /// Whether an id is listed.
    #[inline]
    #[must_use]
    pub fn contains(&self, id: u32) -> bool {
        self.get(id).is_some()
    }

    /// The first pair.
    #[must_use]
    pub fn first(&self) -> Option<(u32, i64)> {
        self.nth(0)
    }

    /// The last pair.
    #[must_use]
    pub fn last(&self) -> Option<(u32, i64)> {
        self.nth(self.len().checked_sub(1)?)
    }

    /// The pair with this ordinal, which is its index in the list of pairs, from 0: straight to it, by the
    /// proved [`pair_at`](crate::pair_at()).
    #[must_use]
    pub fn nth(&self, ordinal: usize) -> Option<(u32, i64)> {
        let pair = within(self.column.pair_at(ordinal as u64)).flatten()?;
        Some((pair.id, pair.value))
    }

    /// All pairs in order, in bounded memory.
    pub fn iter(&self) -> Pairs<'a> {
        self.iter_from(0)
    }

    /// The pairs from the first id at or above this one on, in bounded memory. Its place is found by
    /// a jump entry, without a walk over the blocks before it.
    pub fn iter_from(&self, id: u32) -> Pairs<'a> {
        Pairs::of(*self, id, END)
    }

    /// The pairs whose ids are in a range, in bounded memory; none where its start is above its end.
    ///
    /// ```
    /// use signalfern::{Checked, Edition};
    ///
    /// let bytes = signalfern::write_to_vec(&[0, 2, 7], &[150, 140, 135], Edition::Plain, 9)?;
    /// let scores = Checked::new(&bytes)?;
    /// assert!(scores.range(1..7).eq([(2, 140)]));
    /// assert!(scores.range(..=2).eq([(0, 150), (2, 140)]));
    /// assert_eq!(scores.range(2..).len(), 2);
    /// # Ok::<(), signalfern::Error>(())
    /// ```
    pub fn range(&self, ids: impl RangeBounds<u32>) -> Pairs<'a> {
        // (No id is near the greatest number.)
        let from = match ids.start_bound() {
            Bound::Included(&id) => id,
            Bound::Excluded(&id) => id.saturating_add(1),
            Bound::Unbounded => 0,
        };
        let end = match ids.end_bound() {
            Bound::Included(&id) => id.saturating_add(1),
            Bound::Excluded(&id) => id,
            Bound::Unbounded => END,
        };
        Pairs::of(*self, from, end.min(END))
    }

    /// How many ids are below this one: the ordinal of the first that is not.
    pub(crate) fn ids_below(&self, id: u32) -> usize {
        let found = within(self.column.next(&mut Cursor::new(), id)).flatten();
        found.map_or(self.len(), |it| it.ordinal as usize)
    }

    /// The pairs from an id on, as many as both lists have places; none from an id above the limit.
    pub(crate) fn read_from(&self, id: u32, ids: &mut [u32], values: &mut [i64]) -> Readout {
        within(self.column.read_from(id, ids, values)).unwrap_or(Readout {
            count: 0,
            ended: true,
        })
    }

    /// The count of pairs.
    #[must_use]
    pub const fn len(&self) -> usize {
        self.column.len()
    }

    /// Whether there are no pairs.
    #[must_use]
    pub const fn is_empty(&self) -> bool {
        self.column.is_empty()
    }

    /// The column, for its header numbers and for look-ups that tell the ordinal.
    pub const fn column(&self) -> Column<'a> {
        self.column
    }
}

/// What a checked column answers; none where the id is above the limit.
#[inline]
pub(crate) fn within<T>(answer: Result<T, Refusal>) -> Option<T> {
    match answer {
        Ok(answer) => Some(answer),
        Err(Refusal::Id) => None,
        // Proved not to be, while the bytes stay as they were checked.
        Err(refusal) => panic!("a checked column changed under its borrow: {refusal}"),
    }
}

impl fmt::Debug for Checked<'_> {
    fn fmt(&self, f: &mut fmt::Formatter<'_>) -> fmt::Result {
        f.debug_tuple("Checked").field(&self.column).finish()
    }
}

impl<'a> IntoIterator for Checked<'a> {
    type Item = (u32, i64);
    type IntoIter = Pairs<'a>;

    fn into_iter(self) -> Pairs<'a> {
        self.iter()
    }
}

impl<'a> IntoIterator for &Checked<'a> {
    type Item = (u32, i64);
    type IntoIter = Pairs<'a>;

    fn into_iter(self) -> Pairs<'a> {
        self.iter()
    }
}
