//! A page of ids, looked up in one call in a machine column with a correction on top.

use std::fmt;

use crate::{ffi, Column, Layer, Layered, Refusal};

/// What a page of two columns holds for one id: what [`look_up_layered`](crate::look_up_layered) answers,
/// without its counts.
#[derive(Clone, Copy, Debug, PartialEq, Eq, Hash)]
#[must_use]
pub enum LayeredPageAnswer {
    /// The id is listed.
    #[non_exhaustive]
    Found {
        /// The column that holds it: the correction, if both do.
        layer: Layer,
        /// Its index in that column's list of pairs, from 0.
        ordinal: u64,
        /// Its value there.
        value: i64,
    },
    /// Neither column lists the id.
    Absent,
    /// The look-up of this id was refused.
    #[non_exhaustive]
    Refused {
        /// The column that refused.
        layer: Layer,
        /// The refusal's number in documents 01 and 02, and not the number that comes with it.
        refusal: u8,
    },
}

impl LayeredPageAnswer {
    /// By what stands in one place of the four lists.
    const fn of(kind: u8, ordinal: u64, value: i64, column: u8) -> Self {
        let layer = Layer::given(column as u64);
        match kind {
            0 => Self::Found {
                layer,
                ordinal,
                value,
            },
            1 => Self::Absent,
            refusal => Self::Refused { layer, refusal },
        }
    }

    /// The value, if the id is listed.
    #[must_use]
    pub const fn value(self) -> Option<i64> {
        match self {
            Self::Found { value, .. } => Some(value),
            Self::Absent | Self::Refused { .. } => None,
        }
    }

    /// The column that holds the id, if one does.
    #[must_use]
    pub const fn layer(self) -> Option<Layer> {
        match self {
            Self::Found { layer, .. } => Some(layer),
            Self::Absent | Self::Refused { .. } => None,
        }
    }
}

/// The answers to a page of ids in two columns, in the lists that were lent to [`look_up_layered_page`]. The
/// answer to the id at an index stands at that index.
#[derive(Clone, Copy)]
#[must_use]
pub struct LayeredPage<'a> {
    ordinals: &'a [u64],
    values: &'a [i64],
    kinds: &'a [u8],
    columns: &'a [u8],
    machine_words: u64,
    correction_words: u64,
}

impl<'a> LayeredPage<'a> {
    /// How many ids were looked up.
    #[must_use]
    pub const fn len(&self) -> usize {
        self.kinds.len()
    }

    /// Whether none was.
    #[must_use]
    pub const fn is_empty(&self) -> bool {
        self.kinds.is_empty()
    }

    /// The answer to the id at this index.
    #[must_use]
    pub fn get(&self, index: usize) -> Option<LayeredPageAnswer> {
        (index < self.len()).then(|| self.at(index))
    }

    /// The answers in the order of the ids.
    pub fn iter(&self) -> impl ExactSizeIterator<Item = LayeredPageAnswer> + use<'a> {
        let page = *self;
        (0..page.len()).map(move |index| page.at(index))
    }

    fn at(&self, index: usize) -> LayeredPageAnswer {
        let (ordinal, value) = (self.ordinals[index], self.values[index]);
        LayeredPageAnswer::of(self.kinds[index], ordinal, value, self.columns[index])
    }

    /// For each id its index in the list of pairs of the column that holds it, from 0; 0 where it is not found.
    #[must_use]
    pub const fn ordinals(&self) -> &'a [u64] {
        self.ordinals
    }

    /// For each id its value; 0 where it is not found.
    #[must_use]
    pub const fn values(&self) -> &'a [i64] {
        self.values
    }

    /// For each id 0 if it is found, 1 if it is absent, and otherwise the refusal's number.
    #[must_use]
    pub const fn kinds(&self) -> &'a [u8] {
        self.kinds
    }

    /// For each id the [number](Layer::number) of the column that holds it or that refused; 0 where it is absent.
    #[must_use]
    pub const fn columns(&self) -> &'a [u8] {
        self.columns
    }

    /// How many 64-bit words of a bitmap were looked at in one of the columns for all of them, modulo 2^64.
    #[must_use]
    pub const fn words(&self, layer: Layer) -> u64 {
        match layer {
            Layer::Machine => self.machine_words,
            Layer::Correction => self.correction_words,
        }
    }
}

impl fmt::Debug for LayeredPage<'_> {
    fn fmt(&self, f: &mut fmt::Formatter<'_>) -> fmt::Result {
        f.debug_struct("LayeredPage")
            .field("answers", &self.iter().collect::<Vec<_>>())
            .field("machine_words", &self.machine_words)
            .field("correction_words", &self.correction_words)
            .finish()
    }
}

/// What a page's reply and its lists, cut to the ids, hand out.
fn page<'a>(
    given: ffi::LayeredPage,
    ordinals: &'a [u64],
    values: &'a [i64],
    kinds: &'a [u8],
    columns: &'a [u8],
) -> Result<LayeredPage<'a>, Refusal> {
    match given.refusal {
        0 => {
            // As many as there are ids.
            let count = given.number as usize;
            Ok(LayeredPage {
                ordinals: &ordinals[..count],
                values: &values[..count],
                kinds: &kinds[..count],
                columns: &columns[..count],
                machine_words: given.machine_words,
                correction_words: given.correction_words,
            })
        }
        refusal => Err(Refusal::given(refusal, given.number)),
    }
}

/// Looks a page of ids up in one call in a machine column with a correction on top: each place holds what
/// [`look_up_layered`](crate::look_up_layered) answers for its id. They may repeat and stand in any order.
///
/// The answers go into the first places of the four lists; a refused look-up is an answer too, and names its
/// column. The places after them stay as they were. The machine column is opened only if some id is absent in
/// the correction.
///
/// ```
/// use signalfern::{Edition, Layer, LayeredPageAnswer};
///
/// let machine = signalfern::write_to_vec(&[0, 2, 7], &[150, 140, 135], Edition::Plain, 9)?;
/// let correction = signalfern::write_to_vec(&[2, 4], &[0, 255], Edition::Plain, 9)?;
/// let (mut ordinals, mut values, mut kinds, mut columns) = ([0; 8], [0; 8], [0; 8], [0; 8]);
/// let page = signalfern::look_up_layered_page(
///     &machine, &correction, &[7, 5, 2], &mut ordinals, &mut values, &mut kinds, &mut columns,
/// )?;
/// assert_eq!((page.values(), page.kinds()), (&[135, 0, 0][..], &[0, 1, 0][..]));
/// assert_eq!(page.columns(), [0, 0, 1]);
/// assert_eq!(page.get(1), Some(LayeredPageAnswer::Absent));
/// assert!(page.iter().map(|answer| answer.layer()).eq([Some(Layer::Machine), None, Some(Layer::Correction)]));
/// # Ok::<(), signalfern::Error>(())
/// ```
///
/// # Errors
///
/// [`Refusal::Buffer`] where a list is shorter than the ids, before a byte is read; all four then stay as they
/// were.
pub fn look_up_layered_page<'a>(
    machine: &[u8],
    correction: &[u8],
    ids: &[u32],
    ordinals: &'a mut [u64],
    values: &'a mut [i64],
    kinds: &'a mut [u8],
    columns: &'a mut [u8],
) -> Result<LayeredPage<'a>, Refusal> {
    let given =
        ffi::look_up_layered_page(machine, correction, ids, ordinals, values, kinds, columns);
    page(given, ordinals, values, kinds, columns)
}

impl Layered<Column<'_>> {
    /// Looks a page of ids up in one call: the answer is that of [`look_up_layered_page`], sooner. No place is
    /// refused but with 14, where the id is above [`MAX_ID`](crate::MAX_ID), and with 15, which cannot come from
    /// bytes that [`check`](crate::check) accepts.
    ///
    /// # Errors
    ///
    /// [`Refusal::Buffer`] where a list is shorter than the ids.
    pub fn look_up_page<'a>(
        &self,
        ids: &[u32],
        ordinals: &'a mut [u64],
        values: &'a mut [i64],
        kinds: &'a mut [u8],
        columns: &'a mut [u8],
    ) -> Result<LayeredPage<'a>, Refusal> {
        let (machine, correction) = (&self.machine, &self.correction);
        let given = ffi::look_up_layered_page_in(
            (&machine.numbers, machine.bytes()),
            (&correction.numbers, correction.bytes()),
            ids,
            ordinals,
            values,
            kinds,
            columns,
        );
        page(given, ordinals, values, kinds, columns)
    }
}
