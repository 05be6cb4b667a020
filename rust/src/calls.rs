//! The calls, with Rust's own types.

use std::collections::TryReserveError;

use crate::{ffi, Edition, Error, Refusal};

/// What a look-up answers, where it does not refuse.
///
/// There is no third case; a case may tell more in a later version.
///
/// ```
/// use signalfern::{Answer, Edition};
///
/// let column = signalfern::write_to_vec(&[8], &[-3], Edition::Plain, 9)?;
/// match signalfern::look_up(&column, 8)? {
///     Answer::Found { ordinal, value, .. } => assert_eq!((ordinal, value), (0, -3)),
///     Answer::Absent { .. } => unreachable!("8 is listed"),
/// }
/// # Ok::<(), signalfern::Error>(())
/// ```
#[derive(Clone, Copy, Debug, PartialEq, Eq, Hash)]
#[must_use]
pub enum Answer {
    /// The id is listed.
    #[non_exhaustive]
    Found {
        /// Its index in the list of pairs, from 0.
        ordinal: u64,
        /// Its value.
        value: i64,
        /// How many 64-bit words of a bitmap were looked at.
        words: u64,
        /// How many entries of a sparse block were probed.
        probes: u64,
    },
    /// The id is not listed.
    #[non_exhaustive]
    Absent {
        /// How many 64-bit words of a bitmap were looked at.
        words: u64,
        /// How many entries of a sparse block were probed.
        probes: u64,
    },
}

impl Answer {
    /// The value, if the id is listed.
    ///
    /// ```
    /// use signalfern::Edition;
    ///
    /// let column = signalfern::write_to_vec(&[8], &[-3], Edition::Plain, 9)?;
    /// assert_eq!(signalfern::look_up(&column, 8)?.value(), Some(-3));
    /// assert_eq!(signalfern::look_up(&column, 9)?.value(), None);
    /// # Ok::<(), signalfern::Error>(())
    /// ```
    #[must_use]
    pub const fn value(self) -> Option<i64> {
        match self {
            Self::Found { value, .. } => Some(value),
            Self::Absent { .. } => None,
        }
    }

    /// The index in the list of pairs, from 0, if the id is listed.
    #[must_use]
    pub const fn ordinal(self) -> Option<u64> {
        match self {
            Self::Found { ordinal, .. } => Some(ordinal),
            Self::Absent { .. } => None,
        }
    }

    /// How many 64-bit words of a bitmap were looked at.
    #[must_use]
    pub const fn words(self) -> u64 {
        match self {
            Self::Found { words, .. } | Self::Absent { words, .. } => words,
        }
    }

    /// How many entries of a sparse block were probed: at most 12, and 0 in a block of another kind.
    ///
    /// ```
    /// use signalfern::Edition;
    ///
    /// let column = signalfern::write_to_vec(&[0, 2, 7], &[150, 140, 135], Edition::Plain, 9)?;
    /// // The middle one is probed first.
    /// assert_eq!(signalfern::look_up(&column, 2)?.probes(), 1);
    /// assert_eq!(signalfern::look_up(&column, 7)?.probes(), 2);
    /// # Ok::<(), signalfern::Error>(())
    /// ```
    #[must_use]
    pub const fn probes(self) -> u64 {
        match self {
            Self::Found { probes, .. } | Self::Absent { probes, .. } => probes,
        }
    }
}

pub(crate) fn number(reply: ffi::Reply) -> Result<u64, Refusal> {
    match reply.refusal {
        0 => Ok(reply.number),
        refusal => Err(Refusal::given(refusal, reply.number)),
    }
}

/// A number that counts elements of a slice lent to the call.
pub(crate) fn len(reply: ffi::Reply) -> Result<usize, Refusal> {
    number(reply).map(|number| usize::try_from(number).expect("no slice is longer"))
}

#[inline]
pub(crate) fn answer(answer: ffi::Answer) -> Result<Answer, Refusal> {
    match answer.kind {
        0 => Ok(Answer::Found {
            ordinal: answer.ordinal,
            value: answer.value,
            words: answer.words,
            probes: answer.probes,
        }),
        1 => Ok(Answer::Absent {
            words: answer.words,
            probes: answer.probes,
        }),
        refusal => Err(Refusal::given(refusal, answer.number)),
    }
}

/// Writes the column of the pairs `(ids[i], values[i])` to the front of `out`, and gives its byte
/// count. The bytes of `out` after it stay as they were.
///
/// `edition` says how the values are stored. `power` is the rank power: 0 for no ranks, or 7 to 15 for
/// one rank to every 2^power places of a block that is stored as a bitmap. The usual one is
/// [`USUAL_POWER`](crate::USUAL_POWER).
///
/// ```
/// use signalfern::Edition;
///
/// let mut out = [0xAA; 30];
/// let len = signalfern::write(&[0, 2, 7], &[150, 140, 135], Edition::Plain, 9, &mut out)?;
/// assert_eq!(len, 27);
/// assert_eq!(out[27..], [0xAA; 3]);
/// # Ok::<(), signalfern::Refusal>(())
/// ```
///
/// # Errors
///
/// The first that applies of [`Refusal::Lengths`], [`Refusal::Power`], [`Refusal::Order`],
/// [`Refusal::Range`] and [`Refusal::Room`]; `out` then stays as it was. ([`Refusal::Edition`] comes
/// after the first of them, and cannot come here: there is no `Edition` that is none. Nor does
/// [`Refusal::Plan`]: told [`Edition::Table`], the writer goes by [`plan()`](crate::plan()).)
pub fn write(
    ids: &[u32],
    values: &[i64],
    edition: Edition,
    power: u32,
    out: &mut [u8],
) -> Result<usize, Refusal> {
    len(ffi::write(ids, values, edition.number(), power, out))
}

/// So many places that hold 0, without an abort where there is no memory for them.
pub(crate) fn places<T: Clone + Default>(count: usize) -> Result<Vec<T>, TryReserveError> {
    let mut places = Vec::new();
    places.try_reserve_exact(count)?;
    places.resize(count, T::default());
    Ok(places)
}

/// Writes the column of the pairs to a vector of just its length. See [`write()`].
///
/// ```
/// let empty = signalfern::write_to_vec(&[], &[], signalfern::Edition::Plain, 9)?;
/// assert_eq!(empty.len(), 23);
/// # Ok::<(), signalfern::Error>(())
/// ```
///
/// # Errors
///
/// [`Error::Refused`] with those of [`write()`], but for [`Refusal::Room`]; [`Error::Memory`].
pub fn write_to_vec(
    ids: &[u32],
    values: &[i64],
    edition: Edition,
    power: u32,
) -> Result<Vec<u8>, Error> {
    to_vec(|out| write(ids, values, edition, power, out))
}

/// What `write` puts into a vector of just the bytes that it asks for.
pub(crate) fn to_vec(
    write: impl Fn(&mut [u8]) -> Result<usize, Refusal>,
) -> Result<Vec<u8>, Error> {
    let mut out = match write(&mut []) {
        Err(Refusal::Room { needed }) => places(needed)?,
        Err(refusal) => return Err(refusal.into()),
        Ok(_) => unreachable!("no column and no set is empty of bytes"),
    };
    write(&mut out)?;
    Ok(out)
}

/// Writes the column of pairs from an iterator, in ascending order of their ids. See [`write()`].
///
/// The pairs are gathered in two lists first. Nothing more is taken after an id that is not above
/// the one before it.
///
/// ```
/// use std::collections::BTreeMap;
/// use signalfern::{Edition, USUAL_POWER};
///
/// let scores = BTreeMap::from([(7, 135), (0, 150), (2, 140)]);
/// let column = signalfern::write_pairs(scores, Edition::Plain, USUAL_POWER)?;
/// assert_eq!(signalfern::Checked::new(&column)?.get(2), Some(140));
/// # Ok::<(), signalfern::Error>(())
/// ```
///
/// # Errors
///
/// Those of [`write_to_vec`] for the list of all pairs.
pub fn write_pairs<I>(pairs: I, edition: Edition, power: u32) -> Result<Vec<u8>, Error>
where
    I: IntoIterator<Item = (u32, i64)>,
{
    let pairs = pairs.into_iter();
    let (mut ids, mut values) = (Vec::new(), Vec::new());
    let at_least = pairs.size_hint().0;
    ids.try_reserve(at_least)?;
    values.try_reserve(at_least)?;
    for (id, value) in pairs {
        let ascends = ids.last().is_none_or(|&before| before < id);
        ids.try_reserve(1)?;
        values.try_reserve(1)?;
        ids.push(id);
        values.push(value);
        if !ascends {
            // The refusal is settled: the first such index decides, and only POWER comes before.
            break;
        }
    }
    write_to_vec(&ids, &values, edition, power)
}

/// Tells whether the bytes are a column to the last bit, and gives its count of pairs.
///
/// Accepted bytes are the column of just one list of pairs. The time grows with the bytes and not
/// with the pairs.
///
/// ```
/// use signalfern::{Edition, Refusal};
///
/// let mut column = signalfern::write_to_vec(&[0, 2, 7], &[150, 140, 135], Edition::Plain, 9)?;
/// assert_eq!(signalfern::check(&column), Ok(3));
/// *column.last_mut().unwrap() |= 1;
/// assert_eq!(signalfern::check(&column), Err(Refusal::Damaged));
/// assert_eq!(signalfern::check(&column[..20]), Err(Refusal::Length));
/// # Ok::<(), signalfern::Error>(())
/// ```
///
/// # Errors
///
/// Those of [`Column::open`](crate::Column::open), then [`Refusal::Damaged`].
pub fn check(bytes: &[u8]) -> Result<u64, Refusal> {
    number(ffi::check(bytes))
}

/// Reads all pairs into the first places of `ids` and `values`, and gives their count. The places
/// after them stay as they were. The bytes are checked in full first.
///
/// ```
/// use signalfern::Edition;
///
/// let column = signalfern::write_to_vec(&[0, 2, 7], &[150, 140, 135], Edition::Plain, 9)?;
/// let (mut ids, mut values) = ([9; 4], [9; 4]);
/// let count = signalfern::read(&column, &mut ids, &mut values)?;
/// assert_eq!(count, 3);
/// assert_eq!((ids, values), ([0, 2, 7, 9], [150, 140, 135, 9]));
/// # Ok::<(), signalfern::Error>(())
/// ```
///
/// # Errors
///
/// Those of [`Column::open`](crate::Column::open), then [`Refusal::Buffer`], then
/// [`Refusal::Damaged`]; both buffers then stay as they were.
pub fn read(bytes: &[u8], ids: &mut [u32], values: &mut [i64]) -> Result<usize, Refusal> {
    len(ffi::read(bytes, ids, values))
}

/// Reads all pairs into two vectors of just their count. See [`read`].
///
/// The bytes are checked before anything is allocated, so a header that claims too much costs
/// nothing. But a sound column can be far smaller than its pairs: 393 KB may hold 2147352576 of
/// them. [`check`] tells the count first.
///
/// ```
/// use signalfern::Edition;
///
/// let column = signalfern::write_to_vec(&[0, 2, 7], &[150, 140, 135], Edition::Plain, 9)?;
/// let (ids, values) = signalfern::read_to_vecs(&column)?;
/// assert_eq!((ids, values), (vec![0, 2, 7], vec![150, 140, 135]));
/// # Ok::<(), signalfern::Error>(())
/// ```
///
/// # Errors
///
/// [`Error::Refused`] with those of [`check`]; [`Error::Memory`]. A system that grants more memory
/// than it has may end the program later, when it is used: see [`Checked`](crate::Checked) for a
/// walk in bounded memory.
pub fn read_to_vecs(bytes: &[u8]) -> Result<(Vec<u32>, Vec<i64>), Error> {
    let count = len(ffi::check(bytes))?;
    let (mut ids, mut values) = (places(count)?, places(count)?);
    read(bytes, &mut ids, &mut values)?;
    Ok((ids, values))
}

/// Looks one id up, without reading the whole column.
///
/// On bytes that [`check`] accepts the answer is that of the list of pairs. Other bytes are not
/// checked in full: the answer is then the one that the steps of document 01 fix. For many look-ups
/// of one column, open it once: [`Column::open`](crate::Column::open).
///
/// # Errors
///
/// [`Refusal::Id`], then those of [`Column::open`](crate::Column::open), then [`Refusal::Broken`].
#[inline]
pub fn look_up(bytes: &[u8], id: u32) -> Result<Answer, Refusal> {
    answer(ffi::look_up(bytes, id))
}
