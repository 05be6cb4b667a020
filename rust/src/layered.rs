//! A correction on top of a machine column: the look-up prefers it.

use std::{error, fmt};

use crate::{ffi, Column, Refusal};

/// One of two columns of which one lies on top.
#[derive(Clone, Copy, Debug, PartialEq, Eq, Hash)]
pub enum Layer {
    /// The machine column.
    Machine,
    /// The correction on top of it.
    Correction,
}

impl Layer {
    /// By the number that the library has for it.
    pub(crate) const fn given(number: u64) -> Self {
        match number {
            0 => Self::Machine,
            _ => Self::Correction,
        }
    }

    /// Its number, as a list of columns has it: 0 for the machine column, 1 for the correction.
    ///
    /// ```
    /// use signalfern::Layer;
    ///
    /// assert_eq!(Layer::from_number(1), Some(Layer::Correction));
    /// assert_eq!((Layer::Machine.number(), Layer::from_number(2)), (0, None));
    /// ```
    #[must_use]
    pub const fn number(self) -> u8 {
        self.of(0, 1)
    }

    /// The column with this number, if it is one.
    #[must_use]
    pub const fn from_number(number: u8) -> Option<Self> {
        match number {
            0 => Some(Self::Machine),
            1 => Some(Self::Correction),
            _ => None,
        }
    }

    /// One of two things, by the column that it belongs to.
    const fn of<T: Copy>(self, machine: T, correction: T) -> T {
        match self {
            Self::Machine => machine,
            Self::Correction => correction,
        }
    }
}

impl fmt::Display for Layer {
    fn fmt(&self, f: &mut fmt::Formatter<'_>) -> fmt::Result {
        f.write_str(self.of("machine", "correction"))
    }
}

/// What a look-up in a machine column with a correction on top answers, where it does not refuse.
///
/// There is no third case; a case may tell more in a later version.
#[derive(Clone, Copy, Debug, PartialEq, Eq, Hash)]
#[must_use]
pub enum LayeredAnswer {
    /// The id is listed.
    #[non_exhaustive]
    Found {
        /// The column that holds it: the correction, if both do.
        layer: Layer,
        /// Its index in that column's list of pairs, from 0.
        ordinal: u64,
        /// Its value there.
        value: i64,
        /// How many 64-bit words of a bitmap were looked at in the machine column; 0 if the
        /// correction holds the id.
        machine_words: u64,
        /// The same for the correction.
        correction_words: u64,
    },
    /// Neither column lists the id.
    #[non_exhaustive]
    Absent {
        /// How many 64-bit words of a bitmap were looked at in the machine column.
        machine_words: u64,
        /// The same for the correction.
        correction_words: u64,
    },
}

impl LayeredAnswer {
    /// The column that holds the id, if one does.
    #[must_use]
    pub const fn layer(self) -> Option<Layer> {
        match self {
            Self::Found { layer, .. } => Some(layer),
            Self::Absent { .. } => None,
        }
    }

    /// The value, if the id is listed.
    #[must_use]
    pub const fn value(self) -> Option<i64> {
        match self {
            Self::Found { value, .. } => Some(value),
            Self::Absent { .. } => None,
        }
    }

    /// The index in its own column's list of pairs, from 0, if the id is listed.
    #[must_use]
    pub const fn ordinal(self) -> Option<u64> {
        match self {
            Self::Found { ordinal, .. } => Some(ordinal),
            Self::Absent { .. } => None,
        }
    }

    /// How many 64-bit words of a bitmap were looked at in one of the columns.
    #[must_use]
    pub const fn words(self, layer: Layer) -> u64 {
        let (Self::Found {
            machine_words,
            correction_words,
            ..
        }
        | Self::Absent {
            machine_words,
            correction_words,
        }) = self;
        layer.of(machine_words, correction_words)
    }
}

/// Why a look-up in two columns refused, and which of them did.
///
/// ```
/// use signalfern::{Edition, Layer, Refusal};
///
/// let machine = signalfern::write_to_vec(&[0, 2], &[150, 140], Edition::Plain, 9)?;
/// let refused = signalfern::look_up_layered(&machine, b"", 2).unwrap_err();
/// assert_eq!((refused.layer, refused.refusal), (Layer::Correction, Refusal::Short { bytes: 0 }));
/// assert!(refused.to_string().starts_with("the correction column: "));
/// # Ok::<(), signalfern::Error>(())
/// ```
#[derive(Clone, Copy, Debug, PartialEq, Eq, Hash)]
#[non_exhaustive]
#[must_use]
pub struct LayeredRefusal {
    /// The column that was refused. An id above the limit is refused as the correction's.
    pub layer: Layer,
    /// Why.
    pub refusal: Refusal,
}

impl fmt::Display for LayeredRefusal {
    fn fmt(&self, f: &mut fmt::Formatter<'_>) -> fmt::Result {
        write!(f, "the {} column: {}", self.layer, self.refusal)
    }
}

impl error::Error for LayeredRefusal {}

impl LayeredRefusal {
    /// By the numbers that the library has for them.
    pub(crate) fn given(column: u64, refusal: u64, number: u64) -> Self {
        Self {
            layer: Layer::given(column),
            refusal: Refusal::given(refusal, number),
        }
    }
}

#[inline]
fn answer(given: ffi::Layered) -> Result<LayeredAnswer, LayeredRefusal> {
    match given.kind {
        0 => Ok(LayeredAnswer::Found {
            layer: Layer::given(given.column),
            ordinal: given.ordinal,
            value: given.value,
            machine_words: given.machine_words,
            correction_words: given.correction_words,
        }),
        1 => Ok(LayeredAnswer::Absent {
            machine_words: given.machine_words,
            correction_words: given.correction_words,
        }),
        refusal => Err(LayeredRefusal::given(given.column, refusal, given.number)),
    }
}

/// Looks one id up in a machine column with a correction on top. For many look-ups of the same two,
/// see [`Layered`].
///
/// The correction is looked in first. Where it holds the id or refuses, that is the answer, and the
/// machine column is not looked at, whatever its bytes are. Where the id is absent there, the machine
/// column's answer or refusal is the call's.
///
/// # Errors
///
/// Those of [`look_up`](crate::look_up) in the correction; then, if the id is absent there, those of
/// the same in the machine column.
#[inline]
pub fn look_up_layered(
    machine: &[u8],
    correction: &[u8],
    id: u32,
) -> Result<LayeredAnswer, LayeredRefusal> {
    answer(ffi::look_up_layered(machine, correction, id))
}

/// Gives the value section of whichever column holds the id, as [`look_up_layered`] finds it: a part
/// of the bytes that were lent. Where the id is absent or the look-up refuses, it is an empty part
/// of the machine column.
///
/// ```
/// use signalfern::Edition;
///
/// let machine = signalfern::write_to_vec(&[0, 2, 7], &[150, 140, 135], Edition::Plain, 9)?;
/// let correction = signalfern::write_to_vec(&[2, 4], &[0, 255], Edition::Plain, 9)?;
/// let values = signalfern::layered_values(&machine, &correction, 7);
/// assert!(std::ptr::eq(values, &machine[26..]));
/// assert_eq!(values, [0xD0]);
/// assert!(signalfern::layered_values(&machine, &correction, 5).is_empty());
/// # Ok::<(), signalfern::Error>(())
/// ```
#[must_use]
pub fn layered_values<'a>(machine: &'a [u8], correction: &'a [u8], id: u32) -> &'a [u8] {
    let part = ffi::layered_values(machine, correction, id);
    let lent = Layer::given(part.column).of(machine, correction);
    // A part of what was lent, so its ends fit.
    &lent[part.start as usize..][..part.len as usize]
}

/// A machine column with a correction on top: the stenographer's scores are preferred.
///
/// Of two opened columns it answers and refuses as the library's calls do:
///
/// ```
/// use signalfern::{Column, Edition, Layer, Layered};
///
/// let machine = signalfern::write_to_vec(&[0, 2, 7], &[150, 140, 135], Edition::Plain, 9)?;
/// let correction = signalfern::write_to_vec(&[2, 4], &[0, 255], Edition::Plain, 9)?;
/// let scores = Layered::new(Column::open(&machine)?, Column::open(&correction)?);
///
/// let answer = scores.look_up(2)?;
/// assert_eq!((answer.layer(), answer.value()), (Some(Layer::Correction), Some(0)));
/// let answer = scores.look_up(7)?;
/// assert_eq!((answer.layer(), answer.value()), (Some(Layer::Machine), Some(135)));
/// assert_eq!(scores.look_up(5)?.value(), None);
/// # Ok::<(), signalfern::Error>(())
/// ```
///
/// Of two [`Checked`](crate::Checked) columns it is a sorted list of pairs, and there is nothing left to refuse:
///
/// ```
/// use signalfern::{Checked, Edition, Layer, Layered};
///
/// let machine = signalfern::write_to_vec(&[0, 2, 7], &[150, 140, 135], Edition::Plain, 9)?;
/// let correction = signalfern::write_to_vec(&[2, 4], &[0, 255], Edition::Plain, 9)?;
/// let scores = Layered::new(Checked::new(&machine)?, Checked::new(&correction)?);
///
/// assert_eq!((scores.get(2), scores.get(7), scores.get(5)), (Some(0), Some(135), None));
/// assert_eq!(scores.get_page(&[7, 5, 2])?, [Some(135), None, Some(0)]);
/// let pairs: Vec<(u32, i64, Layer)> = scores.iter_from(3).collect();
/// assert_eq!(pairs, [(4, 255, Layer::Correction), (7, 135, Layer::Machine)]);
/// # Ok::<(), signalfern::Error>(())
/// ```
#[derive(Clone, Copy, Debug)]
#[must_use]
pub struct Layered<C> {
    pub(crate) machine: C,
    pub(crate) correction: C,
}

impl<C> Layered<C> {
    /// Lays the correction on top of the machine column.
    pub const fn new(machine: C, correction: C) -> Self {
        Self {
            machine,
            correction,
        }
    }
}

impl<C: Copy> Layered<C> {
    /// One of the two columns.
    pub const fn column(&self, layer: Layer) -> C {
        layer.of(self.machine, self.correction)
    }
}

impl<'a> Layered<Column<'a>> {
    /// Looks one id up: the answer is that of [`look_up_layered`], sooner.
    ///
    /// # Errors
    ///
    /// [`Refusal::Id`], as the correction's; [`Refusal::Broken`] by the correction; then, if the id
    /// is absent there, [`Refusal::Broken`] by the machine column. Bytes that
    /// [`check`](crate::check) accepts are never broken.
    #[inline]
    pub fn look_up(&self, id: u32) -> Result<LayeredAnswer, LayeredRefusal> {
        let (machine, correction) = (&self.machine, &self.correction);
        answer(ffi::look_up_layered_in(
            (&machine.numbers, machine.bytes()),
            (&correction.numbers, correction.bytes()),
            id,
        ))
    }

    /// The value section of whichever column holds the id: see [`layered_values`]. It lives as long
    /// as the bytes that were opened:
    ///
    /// ```
    /// use signalfern::{Column, Edition, Layered};
    ///
    /// fn values_of<'a>(machine: Column<'a>, correction: Column<'a>) -> &'a [u8] {
    ///     Layered::new(machine, correction).values_of(2)
    /// }
    /// let machine = signalfern::write_to_vec(&[2, 7], &[140, 135], Edition::Plain, 9)?;
    /// let correction = signalfern::write_to_vec(&[], &[], Edition::Plain, 9)?;
    /// let values = values_of(Column::open(&machine)?, Column::open(&correction)?);
    /// assert!(std::ptr::eq(values, &machine[machine.len() - 1..]));
    /// # Ok::<(), signalfern::Error>(())
    /// ```
    #[must_use]
    pub fn values_of(&self, id: u32) -> &'a [u8] {
        layered_values(self.machine.bytes(), self.correction.bytes(), id)
    }
}
