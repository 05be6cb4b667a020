//! The next scored candidate: from a cursor, the first listed id at or above a target.

use std::iter::FusedIterator;

use crate::{ffi, Column, Header, Refusal, MAX_ID};

/// How far targets went: the last one that was answered.
///
/// From a cursor, targets stand still or grow; one below the last is refused with
/// [`Refusal::Back`]. A new cursor is 0, below which no target lies. It is of no certain column, and
/// any one is fit: an answer goes by the bytes, the target and this number alone.
///
/// ```
/// use signalfern::{Column, Cursor, Edition, Refusal};
///
/// let bytes = signalfern::write_to_vec(&[0, 2, 7], &[150, 140, 135], Edition::Plain, 9)?;
/// let column = Column::open(&bytes)?;
/// let mut cursor = Cursor::new();
/// let mut id = |target| column.next(&mut cursor, target).map(|it| it.map(|it| it.id));
/// assert_eq!(id(3), Ok(Some(7)));
/// assert_eq!(id(3), Ok(Some(7)));
/// assert_eq!(id(2), Err(Refusal::Back));
/// assert_eq!(id(8), Ok(None));
/// // That there is none is an answer too.
/// assert_eq!(id(7), Err(Refusal::Back));
/// assert_eq!(cursor, Cursor::at(8));
/// # Ok::<(), signalfern::Error>(())
/// ```
#[derive(Clone, Copy, Debug, Default, PartialEq, Eq, Hash)]
pub struct Cursor {
    last: u32,
}

impl Cursor {
    /// A new one.
    #[must_use]
    pub const fn new() -> Self {
        Self::at(0)
    }

    /// The one whose last answered target is this.
    #[must_use]
    pub const fn at(last: u32) -> Self {
        Self { last }
    }

    /// The last target answered.
    #[must_use]
    pub const fn last(self) -> u32 {
        self.last
    }

    fn lent(self) -> ffi::Cursor {
        ffi::Cursor {
            last: self.last.into(),
        }
    }

    /// Takes the cursor out of what a call gave; a refusal gives the one that it was lent.
    #[inline]
    fn take(&mut self, given: ffi::Candidate) -> Result<Option<Candidate>, Refusal> {
        // The target, or what was lent.
        self.last = given.cursor.last as u32;
        match given.kind {
            0 => Ok(Some(Candidate {
                // An id, so it has 31 bits.
                id: given.id as u32,
                ordinal: given.ordinal,
                value: given.value,
            })),
            1 => Ok(None),
            refusal => Err(Refusal::given(refusal, given.number)),
        }
    }
}

/// A listed id, as [`next()`] finds it.
#[derive(Clone, Copy, Debug, PartialEq, Eq, Hash)]
#[non_exhaustive]
pub struct Candidate {
    /// The id.
    pub id: u32,
    /// Its index in the list of pairs, from 0.
    pub ordinal: u64,
    /// Its value.
    pub value: i64,
}

/// Gives the first listed id at or above the target, or none.
///
/// On bytes that [`check`](crate::check) accepts the answer is that of the list of pairs. Other bytes
/// are not checked in full: the answer is then the one that the steps of a look-up, with document
/// 01's scan, fix for the target and each id above it in turn. For many targets in one column, open
/// it once: [`Column::next`].
///
/// # Errors
///
/// [`Refusal::Id`] for a target above [`MAX_ID`], then [`Refusal::Back`] for one below the last one
/// answered, then those of [`Column::open`], then [`Refusal::Broken`]. The cursor then stays as it
/// was.
#[inline]
pub fn next(cursor: &mut Cursor, bytes: &[u8], target: u32) -> Result<Option<Candidate>, Refusal> {
    cursor.take(ffi::next(cursor.lent(), bytes, target))
}

impl<'a> Column<'a> {
    /// Gives the first listed id at or above the target, or none: the answer is that of
    /// [`next`](crate::next()), sooner.
    ///
    /// ```
    /// use signalfern::{Column, Cursor, Edition};
    ///
    /// let bytes = signalfern::write_to_vec(&[3, 70_000], &[-5, 10], Edition::Plain, 9)?;
    /// let column = Column::open(&bytes)?;
    /// let mut cursor = Cursor::new();
    /// let next = column.next(&mut cursor, 4)?.expect("70000 is listed");
    /// assert_eq!((next.id, next.ordinal, next.value), (70_000, 1, 10));
    /// assert_eq!(column.next(&mut cursor, 70_001)?, None);
    /// # Ok::<(), signalfern::Error>(())
    /// ```
    ///
    /// # Errors
    ///
    /// [`Refusal::Id`], then [`Refusal::Back`], then [`Refusal::Broken`], which cannot come from bytes
    /// that [`check`](crate::check) accepts. The cursor then stays as it was.
    #[inline]
    pub fn next(&self, cursor: &mut Cursor, target: u32) -> Result<Option<Candidate>, Refusal> {
        let given = ffi::next_in(&self.numbers, cursor.lent(), self.bytes(), target);
        cursor.take(given)
    }

    /// The pairs from the first id at or above this one on, each by the proved
    /// [`next`](Self::next). Of a column that the check accepted,
    /// [`Checked::iter_from`](crate::Checked::iter_from) gives them sooner.
    ///
    /// ```
    /// use signalfern::Edition;
    ///
    /// let bytes = signalfern::write_to_vec(&[0, 2, 7], &[150, 140, 135], Edition::Plain, 9)?;
    /// let column = signalfern::Column::open(&bytes)?;
    /// for candidate in column.candidates_from(1) {
    ///     let candidate = candidate?;
    ///     println!("{}: {}", candidate.id, candidate.value);
    /// }
    /// # Ok::<(), signalfern::Error>(())
    /// ```
    pub fn candidates_from(&self, id: u32) -> Candidates<'a> {
        Candidates {
            column: *self,
            cursor: Cursor::new(),
            target: Some(id),
        }
    }
}

impl Header {
    /// Gives the first listed id at or above the target, or none, in bytes that are lent for this
    /// call, taking these numbers for their header's. For the header of the same bytes, opened, the
    /// answer is that of [`next`](crate::next()).
    ///
    /// # Errors
    ///
    /// [`Refusal::Id`], then [`Refusal::Back`], then those of [`look_up_in`](Self::look_up_in). The
    /// cursor then stays as it was.
    #[inline]
    pub fn next_in(
        &self,
        cursor: &mut Cursor,
        bytes: &[u8],
        target: u32,
    ) -> Result<Option<Candidate>, Refusal> {
        cursor.take(ffi::next_in(&self.numbers(), cursor.lent(), bytes, target))
    }
}

/// The pairs of a [`Column`] from an id on, from [`Column::candidates_from`].
///
/// It ends after the last pair, or after the first refusal: [`Refusal::Id`] for an id to start from
/// that is above [`MAX_ID`], [`Refusal::Broken`] for damaged bytes.
#[derive(Clone, Debug)]
#[must_use]
pub struct Candidates<'a> {
    column: Column<'a>,
    cursor: Cursor,
    /// The target of the next call; none at the end.
    target: Option<u32>,
}

impl Iterator for Candidates<'_> {
    type Item = Result<Candidate, Refusal>;

    #[inline]
    fn next(&mut self) -> Option<Self::Item> {
        let target = self.target.take()?;
        let found = self.column.next(&mut self.cursor, target).transpose()?;
        if let Ok(candidate) = found {
            self.target = Some(candidate.id + 1).filter(|&id| id <= MAX_ID);
        }
        Some(found)
    }
}

impl FusedIterator for Candidates<'_> {}
