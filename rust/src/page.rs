//! A page of ids, looked up in one call.

use std::fmt;

use crate::{ffi, Column, Error, Refusal};

/// What a page holds for one id: what [`look_up`](crate::look_up) answers, without its counts.
#[derive(Clone, Copy, Debug, PartialEq, Eq, Hash)]
#[must_use]
pub enum PageAnswer {
    /// The id is listed.
    #[non_exhaustive]
    Found {
        /// Its index in the list of pairs, from 0.
        ordinal: u64,
        /// Its value.
        value: i64,
    },
    /// The id is not listed.
    Absent,
    /// The look-up of this id was refused: the refusal's number in documents 01 and 02, and not the
    /// number that comes with it.
    Refused(u8),
}

impl PageAnswer {
    /// By what stands in one place of the three lists.
    const fn of(kind: u8, ordinal: u64, value: i64) -> Self {
        match kind {
            0 => Self::Found { ordinal, value },
            1 => Self::Absent,
            refusal => Self::Refused(refusal),
        }
    }

    /// The value, if the id is listed.
    #[must_use]
    pub const fn value(self) -> Option<i64> {
        match self {
            Self::Found { value, .. } => Some(value),
            Self::Absent | Self::Refused(_) => None,
        }
    }

    /// The index in the list of pairs, from 0, if the id is listed.
    #[must_use]
    pub const fn ordinal(self) -> Option<u64> {
        match self {
            Self::Found { ordinal, .. } => Some(ordinal),
            Self::Absent | Self::Refused(_) => None,
        }
    }
}

/// The answers to a page of ids, in the lists that were lent to [`look_up_page`]. The answer to the
/// id at an index stands at that index.
#[derive(Clone, Copy)]
#[must_use]
pub struct Page<'a> {
    ordinals: &'a [u64],
    values: &'a [i64],
    kinds: &'a [u8],
    words: u64,
}

impl<'a> Page<'a> {
    /// How many ids were looked up.
    #[must_use]
    pub const fn len(&self) -> usize {
        self.kinds.len()
    }

    /// Whether none was.
    #[must_use]
    pub const fn is_empty(&self) -> bool {
        self.kinds.is_empty()
    }

    /// The answer to the id at this index.
    #[must_use]
    pub fn get(&self, index: usize) -> Option<PageAnswer> {
        let (ordinals, values) = (self.ordinals, self.values);
        let kind = *self.kinds.get(index)?;
        Some(PageAnswer::of(kind, ordinals[index], values[index]))
    }

    /// The answers in the order of the ids.
    pub fn iter(&self) -> impl ExactSizeIterator<Item = PageAnswer> + use<'a> {
        let found = self.ordinals.iter().zip(self.values);
        (self.kinds.iter().zip(found))
            .map(|(&kind, (&ordinal, &value))| PageAnswer::of(kind, ordinal, value))
    }

    /// For each id its index in the list of pairs, from 0; 0 where it is not found.
    #[must_use]
    pub const fn ordinals(&self) -> &'a [u64] {
        self.ordinals
    }

    /// For each id its value; 0 where it is not found.
    #[must_use]
    pub const fn values(&self) -> &'a [i64] {
        self.values
    }

    /// For each id 0 if it is found, 1 if it is absent, and otherwise the refusal's number.
    #[must_use]
    pub const fn kinds(&self) -> &'a [u8] {
        self.kinds
    }

    /// How many 64-bit words of a bitmap were looked at for all of them, modulo 2^64.
    #[must_use]
    pub const fn words(&self) -> u64 {
        self.words
    }
}

impl fmt::Debug for Page<'_> {
    fn fmt(&self, f: &mut fmt::Formatter<'_>) -> fmt::Result {
        f.debug_struct("Page")
            .field("answers", &self.iter().collect::<Vec<_>>())
            .field("words", &self.words)
            .finish()
    }
}

/// Looks a page of ids up in one call, which opens the column once: the sooner way for many ids. They
/// may repeat and stand in any order.
///
/// The answers go into the first places of the three lists, each as [`look_up`](crate::look_up) gives
/// it; a refused look-up is an answer too. The places after them stay as they were.
///
/// ```
/// use signalfern::{Edition, MAX_ID, PageAnswer};
///
/// let column = signalfern::write_to_vec(&[0, 2, 7], &[150, 140, 135], Edition::Plain, 9)?;
/// let (mut ordinals, mut values, mut kinds) = ([0; 8], [0; 8], [0; 8]);
/// let ids = [7, 5, 7, MAX_ID + 1];
/// let page = signalfern::look_up_page(&column, &ids, &mut ordinals, &mut values, &mut kinds)?;
/// assert_eq!(page.values(), [135, 0, 135, 0]);
/// assert_eq!(page.kinds(), [0, 1, 0, 14]);
/// assert_eq!(page.get(1), Some(PageAnswer::Absent));
/// for (id, answer) in ids.into_iter().zip(page.iter()) {
///     println!("{id}: {:?}", answer.value());
/// }
/// # Ok::<(), signalfern::Error>(())
/// ```
///
/// # Errors
///
/// [`Refusal::Buffer`] where a list is shorter than the ids, before a byte is read; all three then
/// stay as they were.
pub fn look_up_page<'a>(
    bytes: &[u8],
    ids: &[u32],
    ordinals: &'a mut [u64],
    values: &'a mut [i64],
    kinds: &'a mut [u8],
) -> Result<Page<'a>, Refusal> {
    let given = ffi::look_up_page(bytes, ids, ordinals, values, kinds);
    match given.refusal {
        0 => Ok(Page {
            ordinals: &ordinals[..ids.len()],
            values: &values[..ids.len()],
            kinds: &kinds[..ids.len()],
            words: given.words,
        }),
        refusal => Err(Refusal::given(refusal, given.number)),
    }
}

/// Ids that go into one call where the lists are made here.
const IDS: usize = 1000;

/// Looks ids up page by page, and gives a vector of the answers in their order. See [`look_up_page`].
///
/// ```
/// use signalfern::Edition;
///
/// let column = signalfern::write_to_vec(&[0, 2, 7], &[150, 140, 135], Edition::Plain, 9)?;
/// let answers = signalfern::look_up_page_to_vec(&column, &[7, 5, 7])?;
/// let values: Vec<Option<i64>> = answers.iter().map(|answer| answer.value()).collect();
/// assert_eq!(values, [Some(135), None, Some(135)]);
/// # Ok::<(), signalfern::Error>(())
/// ```
///
/// # Errors
///
/// [`Error::Memory`].
pub fn look_up_page_to_vec(bytes: &[u8], ids: &[u32]) -> Result<Vec<PageAnswer>, Error> {
    let mut answers = Vec::new();
    answers.try_reserve_exact(ids.len())?;
    let (mut ordinals, mut values, mut kinds) = ([0; IDS], [0; IDS], [0; IDS]);
    for ids in ids.chunks(IDS) {
        let page = look_up_page(bytes, ids, &mut ordinals, &mut values, &mut kinds)?;
        answers.extend(page.iter());
    }
    Ok(answers)
}

impl Column<'_> {
    /// Looks a page of ids up in one call: see [`look_up_page`]. No place is refused but with 14, where
    /// the id is above [`MAX_ID`](crate::MAX_ID), and with 15, which cannot come from bytes that
    /// [`check`](crate::check) accepts.
    ///
    /// # Errors
    ///
    /// [`Refusal::Buffer`] where a list is shorter than the ids.
    pub fn look_up_page<'a>(
        &self,
        ids: &[u32],
        ordinals: &'a mut [u64],
        values: &'a mut [i64],
        kinds: &'a mut [u8],
    ) -> Result<Page<'a>, Refusal> {
        look_up_page(self.bytes(), ids, ordinals, values, kinds)
    }

    /// Looks ids up page by page: see [`look_up_page_to_vec`].
    ///
    /// # Errors
    ///
    /// [`Error::Memory`].
    pub fn look_up_page_to_vec(&self, ids: &[u32]) -> Result<Vec<PageAnswer>, Error> {
        look_up_page_to_vec(self.bytes(), ids)
    }
}
