//! Why a call that makes its own buffers could not do its work.

use std::collections::TryReserveError;
use std::{error, fmt, io};

use crate::{LayeredRefusal, Refusal};

/// Why a call that makes its own buffers gave nothing: the library refused, or there was no memory.
///
/// Memory is no refusal of document 01, whose calls work on lent buffers: [`write()`](crate::write())
/// and [`read`](crate::read) need none and give a bare [`Refusal`].
///
/// ```
/// use signalfern::{Edition, Error, Refusal};
///
/// let error = signalfern::write_to_vec(&[4, 4], &[1, 2], Edition::Plain, 9).unwrap_err();
/// assert_eq!(error, Error::Refused(Refusal::Order { index: 1 }));
/// assert_eq!(error.refusal(), Some(Refusal::Order { index: 1 }));
/// ```
#[derive(Clone, Debug, PartialEq, Eq)]
#[non_exhaustive]
#[must_use]
pub enum Error {
    /// The library refused.
    Refused(Refusal),
    /// The library refused one of two columns.
    RefusedBy(LayeredRefusal),
    /// The memory for what the call gives could not be had. Nothing was aborted, and what was had
    /// is given back.
    Memory(TryReserveError),
}

impl Error {
    /// The refusal, where it is one.
    #[must_use]
    pub const fn refusal(&self) -> Option<Refusal> {
        match self {
            Self::Refused(refusal) => Some(*refusal),
            Self::RefusedBy(refused) => Some(refused.refusal),
            Self::Memory(_) => None,
        }
    }
}

impl fmt::Display for Error {
    fn fmt(&self, f: &mut fmt::Formatter<'_>) -> fmt::Result {
        match self {
            Self::Refused(refusal) => refusal.fmt(f),
            Self::RefusedBy(refused) => refused.fmt(f),
            Self::Memory(_) => write!(f, "there is not enough memory for the result"),
        }
    }
}

impl error::Error for Error {
    fn source(&self) -> Option<&(dyn error::Error + 'static)> {
        match self {
            // The message is the refusal's own already.
            Self::Refused(_) | Self::RefusedBy(_) => None,
            Self::Memory(error) => Some(error),
        }
    }
}

impl From<Refusal> for Error {
    fn from(refusal: Refusal) -> Self {
        Self::Refused(refusal)
    }
}

/// The column stays with the refusal.
///
/// ```
/// use signalfern::{Column, Edition, Error, Layer, Layered, Refusal};
///
/// fn score(machine: &[u8], correction: &[u8], id: u32) -> Result<Option<i64>, Error> {
///     let scores = Layered::new(Column::open(machine)?, Column::open(correction)?);
///     Ok(scores.look_up(id)?.value())
/// }
/// let column = signalfern::write_to_vec(&[0, 2, 7], &[150, 140, 135], Edition::Plain, 9)?;
/// let error = score(&column, &column, u32::MAX).unwrap_err();
/// assert_eq!(error.refusal(), Some(Refusal::Id));
/// assert!(matches!(error, Error::RefusedBy(refused) if refused.layer == Layer::Correction));
/// # Ok::<(), Error>(())
/// ```
impl From<LayeredRefusal> for Error {
    fn from(refused: LayeredRefusal) -> Self {
        Self::RefusedBy(refused)
    }
}

impl From<TryReserveError> for Error {
    fn from(error: TryReserveError) -> Self {
        Self::Memory(error)
    }
}

/// The refusal can be had back by [`io::Error::downcast`]. Its kind is
/// [`InvalidData`](io::ErrorKind::InvalidData) where bytes are no column, and
/// [`InvalidInput`](io::ErrorKind::InvalidInput) where something else that was handed over is wrong.
///
/// ```
/// use std::io::{self, ErrorKind};
/// use signalfern::Refusal;
///
/// fn pairs_in(path: &str) -> io::Result<u64> {
///     Ok(signalfern::check(&std::fs::read(path)?)?)
/// }
/// let error = pairs_in("Cargo.toml").unwrap_err();
/// assert_eq!(error.kind(), ErrorKind::InvalidData);
/// assert_eq!(error.downcast::<Refusal>()?, Refusal::Edition);
/// # Ok::<(), io::Error>(())
/// ```
impl From<Refusal> for io::Error {
    fn from(refusal: Refusal) -> Self {
        Self::new(kind_of(refusal), refusal)
    }
}

/// Of the refusal's kind; it can be had back with its column.
impl From<LayeredRefusal> for io::Error {
    fn from(refused: LayeredRefusal) -> Self {
        Self::new(kind_of(refused.refusal), refused)
    }
}

const fn kind_of(refusal: Refusal) -> io::ErrorKind {
    match refusal {
        Refusal::Short { .. }
        | Refusal::Number { .. }
        | Refusal::Edition
        | Refusal::Header
        | Refusal::Length
        | Refusal::Damaged
        | Refusal::Broken => io::ErrorKind::InvalidData,
        Refusal::Lengths
        | Refusal::Power
        | Refusal::Order { .. }
        | Refusal::Range { .. }
        | Refusal::Room { .. }
        | Refusal::Buffer { .. }
        | Refusal::Id
        | Refusal::Back
        | Refusal::Plan => io::ErrorKind::InvalidInput,
    }
}

/// As of the refusal; [`OutOfMemory`](io::ErrorKind::OutOfMemory) where there was no memory.
impl From<Error> for io::Error {
    fn from(error: Error) -> Self {
        match error {
            Error::Refused(refusal) => refusal.into(),
            Error::RefusedBy(refused) => refused.into(),
            Error::Memory(_) => io::ErrorKind::OutOfMemory.into(),
        }
    }
}
