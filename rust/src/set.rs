//! Sets on disk: ids alone, without values.

use std::fmt;

use crate::calls::{len, number, to_vec};
use crate::{ffi, Error, Refusal};

/// Writes the set of the ids to the front of `out`, and gives its byte count. The bytes of `out` after
/// it stay as they were.
///
/// A set has no header: it is the number of its blocks of 65536 ids, and each block that has an id
/// (document 02, \[14\]). A block of up to 4096 ids lists them, one in which fewer than 4096 are missing
/// lists those, and any other is a bitmap of 8192 bytes.
///
/// ```
/// let mut out = [0xAA; 12];
/// let len = signalfern::set_write(&[0, 2, 7], &mut out)?;
/// // One block: number 0, its ids listed, three of them.
/// assert_eq!(out[..len], [1, 0, 0, 3, 0, 0, 2, 0, 7, 0]);
/// assert_eq!(out[len..], [0xAA; 2]);
/// # Ok::<(), signalfern::Refusal>(())
/// ```
///
/// # Errors
///
/// The first that applies of [`Refusal::Order`], [`Refusal::Range`] and [`Refusal::Room`]; `out` then
/// stays as it was.
pub fn set_write(ids: &[u32], out: &mut [u8]) -> Result<usize, Refusal> {
    len(ffi::set_write(ids, out))
}

/// Writes the set of the ids to a vector of just its length. See [`set_write`].
///
/// ```
/// assert_eq!(signalfern::set_write_to_vec(&[])?, [0]);
/// # Ok::<(), signalfern::Error>(())
/// ```
///
/// # Errors
///
/// [`Error::Refused`] with those of [`set_write`], but for [`Refusal::Room`]; [`Error::Memory`].
pub fn set_write_to_vec(ids: &[u32]) -> Result<Vec<u8>, Error> {
    to_vec(|out| set_write(ids, out))
}

/// Tells whether the bytes are a set to the last bit, and gives its count of ids.
///
/// Accepted bytes are the set of just one list of ids. The time grows with the bytes and not with the
/// ids.
///
/// ```
/// use signalfern::Refusal;
///
/// let set = signalfern::set_write_to_vec(&[0, 2, 7])?;
/// assert_eq!(signalfern::set_check(&set), Ok(3));
/// // A list that is cut off, and a number that is.
/// assert_eq!(signalfern::set_check(&set[..9]), Err(Refusal::Damaged));
/// assert_eq!(signalfern::set_check(&set[..3]), Err(Refusal::Short { bytes: 3 }));
/// # Ok::<(), signalfern::Error>(())
/// ```
///
/// # Errors
///
/// The first fault in the order of the bytes decides: [`Refusal::Short`] or [`Refusal::Number`] for one
/// of a set's numbers, [`Refusal::Damaged`] for anything else.
pub fn set_check(bytes: &[u8]) -> Result<u64, Refusal> {
    number(ffi::set_check(bytes))
}

/// How many ids of a set lie below this one, if it is in the set. The bytes are checked in full on the
/// way, so the time is that of [`set_check`].
///
/// ```
/// let set = signalfern::set_write_to_vec(&[0, 2, 7])?;
/// assert_eq!(signalfern::set_find(&set, 7), Ok(Some(2)));
/// assert_eq!(signalfern::set_find(&set, 5), Ok(None));
/// # Ok::<(), signalfern::Error>(())
/// ```
///
/// # Errors
///
/// [`Refusal::Id`], then those of [`set_check`].
pub fn set_find(bytes: &[u8], id: u32) -> Result<Option<u64>, Refusal> {
    let member = ffi::set_find(bytes, id);
    match member.kind {
        0 => Ok(Some(member.ordinal)),
        1 => Ok(None),
        refusal => Err(Refusal::given(refusal, member.number)),
    }
}

/// A set that [`set_check`] accepted.
///
/// Only the check makes one, and it borrows the bytes, so an id is in it or not, and there is nothing
/// left to refuse. It and a column of the same ids answer alike: that is proved.
///
/// ```
/// use signalfern::{Checked, Edition, Refusal, Set};
///
/// let ids = [0, 2, 7];
/// let (set, column) = (
///     signalfern::set_write_to_vec(&ids)?,
///     signalfern::write_to_vec(&ids, &[150, 140, 135], Edition::Plain, 9)?,
/// );
/// let (set, column) = (Set::new(&set)?, Checked::new(&column)?);
/// assert_eq!(set.len(), column.len());
/// assert!((0..10).all(|id| set.contains(id) == column.contains(id)));
/// assert_eq!(set.ordinal(7), Some(2));
/// assert_eq!(Set::new(&[]).unwrap_err(), Refusal::Short { bytes: 0 });
/// # Ok::<(), signalfern::Error>(())
/// ```
///
/// Each question takes as long as the check did: sets are for keeping and sending. For many questions
/// write a column, whose look-up does not read the whole.
#[derive(Clone, Copy)]
#[must_use]
pub struct Set<'a> {
    bytes: &'a [u8],
    len: usize,
}

impl<'a> Set<'a> {
    /// Checks the bytes in full.
    ///
    /// # Errors
    ///
    /// Those of [`set_check`].
    pub fn new(bytes: &'a [u8]) -> Result<Self, Refusal> {
        let len = len(ffi::set_check(bytes))?;
        Ok(Self { bytes, len })
    }

    /// Whether an id is in the set. One above [`MAX_ID`](crate::MAX_ID) never is.
    #[must_use]
    pub fn contains(&self, id: u32) -> bool {
        self.ordinal(id).is_some()
    }

    /// How many ids of the set lie below this one, if it is in the set.
    #[must_use]
    pub fn ordinal(&self, id: u32) -> Option<u64> {
        match set_find(self.bytes, id) {
            Ok(ordinal) => ordinal,
            Err(Refusal::Id) => None,
            // Proved not to be, while the bytes stay as they were checked.
            Err(refusal) => panic!("a checked set changed under its borrow: {refusal}"),
        }
    }

    /// The count of ids.
    #[must_use]
    pub const fn len(&self) -> usize {
        self.len
    }

    /// Whether there are no ids.
    #[must_use]
    pub const fn is_empty(&self) -> bool {
        self.len == 0
    }

    /// The bytes, as they were lent.
    #[must_use]
    pub const fn bytes(&self) -> &'a [u8] {
        self.bytes
    }
}

impl fmt::Debug for Set<'_> {
    fn fmt(&self, f: &mut fmt::Formatter<'_>) -> fmt::Result {
        f.debug_struct("Set")
            .field("len", &self.len)
            .field("bytes", &self.bytes.len())
            .finish()
    }
}
