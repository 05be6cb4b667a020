//! A column opened once, for many questions; and its header's numbers by themselves.

use std::fmt;

use crate::calls::{answer, Answer};
use crate::{ffi, Edition, Refusal};

/// A column that was opened: its bytes, and the numbers of its header, read once so that a look-up
/// need not.
///
/// ```
/// use signalfern::{Column, Edition};
///
/// let bytes = signalfern::write_to_vec(&[3, 70_000], &[-5, 10], Edition::Plain, 9)?;
/// let column = Column::open(&bytes)?;
/// assert_eq!((column.len(), column.smallest(), column.divisor()), (2, -5, 15));
///
/// let answer = column.look_up(70_000)?;
/// assert_eq!((answer.ordinal(), answer.value()), (Some(1), Some(10)));
/// # Ok::<(), signalfern::Error>(())
/// ```
///
/// It borrows the bytes, so no look-up can be handed others:
///
/// ```compile_fail,E0505
/// use signalfern::Edition;
///
/// let bytes = signalfern::write_to_vec(&[3], &[-5], Edition::Plain, 9)?;
/// let column = signalfern::Column::open(&bytes)?;
/// drop(bytes);
/// column.look_up(3)?;
/// # Ok::<(), signalfern::Error>(())
/// ```
#[derive(Clone, Copy)]
#[must_use]
pub struct Column<'a> {
    bytes: &'a [u8],
    pub(crate) numbers: ffi::Column,
}

impl<'a> Column<'a> {
    /// Reads the header.
    ///
    /// ```
    /// use signalfern::{Column, Refusal};
    ///
    /// // 80 00 where n stands: two bytes, and the last of them is 0.
    /// let refused = Column::open(&[0x01, 0x80, 0x00, 0x09]).unwrap_err();
    /// assert_eq!(refused, Refusal::Number { place: 2 });
    /// assert_eq!(Column::open(&[0x01, 0x80]).unwrap_err(), Refusal::Short { bytes: 2 });
    /// ```
    ///
    /// # Errors
    ///
    /// The first that applies of [`Refusal::Short`] and [`Refusal::Number`] (by the first bad
    /// number), [`Refusal::Edition`] (as soon as the first number is read), [`Refusal::Header`] and
    /// [`Refusal::Length`]. The sections are not checked: see [`check`](crate::check).
    // Compiled into its caller, the numbers are put together anew for each look-up, by words that do not
    // fit those they are then read by, and each look-up waits for some 10 ns.
    #[inline(never)]
    pub fn open(bytes: &'a [u8]) -> Result<Self, Refusal> {
        let numbers = ffi::open(bytes);
        match numbers.refusal {
            0 => Ok(Self { bytes, numbers }),
            refusal => Err(Refusal::given(refusal, numbers.number)),
        }
    }

    /// Looks one id up: the answer is that of [`look_up`](crate::look_up), sooner.
    ///
    /// # Errors
    ///
    /// [`Refusal::Id`], then [`Refusal::Broken`]. The second cannot come from bytes that
    /// [`check`](crate::check) accepts.
    #[inline]
    pub fn look_up(&self, id: u32) -> Result<Answer, Refusal> {
        answer(ffi::look_up_in(&self.numbers, self.bytes, id))
    }

    /// The bytes that the column was opened from.
    #[must_use]
    pub const fn bytes(&self) -> &'a [u8] {
        self.bytes
    }

    /// The header's numbers, without the bytes.
    pub const fn header(&self) -> Header {
        Header::of(&self.numbers)
    }

    /// The count of pairs that the header tells of.
    #[must_use]
    pub const fn len(&self) -> usize {
        // At most 2147352576, by the header rules.
        self.numbers.count as usize
    }

    /// Whether the header tells of no pairs.
    #[must_use]
    pub const fn is_empty(&self) -> bool {
        self.numbers.count == 0
    }

    /// The edition.
    #[must_use]
    pub const fn edition(&self) -> Edition {
        match Edition::from_number(self.numbers.edition) {
            Some(edition) => edition,
            None => panic!("libsignalfern_c opened a column of an edition unknown here"),
        }
    }

    /// n, the count of pairs; [`len`](Self::len) as the header has it.
    #[must_use]
    pub const fn count(&self) -> u64 {
        self.numbers.count
    }

    /// p, the rank power: 0 for no ranks, or 7 to 15.
    #[must_use]
    pub const fn power(&self) -> u64 {
        self.numbers.power
    }

    /// L, the bytes of the id section.
    #[must_use]
    pub const fn id_bytes(&self) -> u64 {
        self.numbers.id_bytes
    }

    /// J, the count of jump entries: 0 to 32767.
    #[must_use]
    pub const fn jump_count(&self) -> u64 {
        self.numbers.jump_count
    }

    /// w, the bits of a stored number: 0 to 64, of which edition 2 has some only. In edition 3 it is 0:
    /// its runs have their own. In edition 4 it is that of a place in the table.
    #[must_use]
    pub const fn width(&self) -> u64 {
        self.numbers.width
    }

    /// The smallest value. In edition 3 it is 0, since its runs have their own, and in edition 4, whose table
    /// has all values.
    ///
    /// ```
    /// use signalfern::Edition;
    ///
    /// let bytes = signalfern::write_to_vec(&[1, 2], &[i64::MIN, 0], Edition::Plain, 0)?;
    /// assert_eq!(signalfern::Column::open(&bytes)?.smallest(), i64::MIN);
    /// # Ok::<(), signalfern::Error>(())
    /// ```
    #[must_use]
    pub const fn smallest(&self) -> i64 {
        decoded(self.numbers.smallest)
    }

    /// g, the divisor of the values' differences: at least 1. In edition 4 it is the count of the table's
    /// entries.
    #[must_use]
    pub const fn divisor(&self) -> u64 {
        self.numbers.divisor
    }

    /// V, the bytes of the value section.
    #[must_use]
    pub const fn value_bytes(&self) -> u64 {
        self.numbers.value_bytes
    }

    /// The bytes of the header, after which the id section starts.
    #[must_use]
    pub const fn start(&self) -> u64 {
        self.numbers.start
    }
}

/// Shows the header, and how many bytes there are.
impl fmt::Debug for Column<'_> {
    fn fmt(&self, f: &mut fmt::Formatter<'_>) -> fmt::Result {
        f.debug_struct("Column")
            .field("header", &self.header())
            .field("bytes", &self.bytes.len())
            .finish()
    }
}

/// The numbers of a column's header, without the column.
///
/// [`Column::header`] gives them. The fields are open, since no value of them can do harm: any
/// numbers and any bytes may be asked, and [`look_up_in`](Self::look_up_in) answers.
///
/// ```
/// use signalfern::{Column, Edition, Header, Refusal};
///
/// let bytes = signalfern::write_to_vec(&[3, 70_000], &[-5, 10], Edition::Plain, 9)?;
/// let mut header = Column::open(&bytes)?.header();
/// assert_eq!(header.look_up_in(&bytes, 3)?.value(), Some(-5));
/// assert_eq!(header.look_up_in(&bytes[1..], 3), Err(Refusal::Length));
/// header.divisor = 0;
/// assert_eq!(header.look_up_in(&bytes, 3), Err(Refusal::Header));
/// assert_eq!(Header::default().look_up_in(&[], 3), Err(Refusal::Header));
/// # Ok::<(), signalfern::Error>(())
/// ```
#[derive(Clone, Copy, Debug, Default, PartialEq, Eq, Hash)]
#[non_exhaustive]
#[must_use]
pub struct Header {
    /// The edition's number: see [`Edition::from_number`].
    pub edition: u64,
    /// n, the count of pairs.
    pub count: u64,
    /// p, the rank power: 0 for no ranks, or 7 to 15.
    pub power: u64,
    /// L, the bytes of the id section.
    pub id_bytes: u64,
    /// J, the count of jump entries.
    pub jump_count: u64,
    /// w, the bits of a stored number.
    pub width: u64,
    /// The smallest value; 0 in editions 3 and 4.
    pub smallest: i64,
    /// g, the divisor of the values' differences, at least 1; in edition 4 the count of the table's entries.
    pub divisor: u64,
    /// V, the bytes of the value section.
    pub value_bytes: u64,
    /// The bytes of the header, after which the id section starts.
    pub start: u64,
}

impl Header {
    /// Looks one id up in bytes that are lent for this call, taking these numbers for their
    /// header's. For the header of the same bytes, opened, the answer is that of
    /// [`look_up`](crate::look_up).
    ///
    /// # Errors
    ///
    /// [`Refusal::Id`]; [`Refusal::Header`] where there is no such edition or the numbers break a
    /// header rule;
    /// [`Refusal::Length`] where `start`, `id_bytes` and `value_bytes` together are not the byte
    /// count; [`Refusal::Broken`].
    #[inline]
    pub fn look_up_in(&self, bytes: &[u8], id: u32) -> Result<Answer, Refusal> {
        answer(ffi::look_up_in(&self.numbers(), bytes, id))
    }

    const fn of(numbers: &ffi::Column) -> Self {
        Self {
            edition: numbers.edition,
            count: numbers.count,
            power: numbers.power,
            id_bytes: numbers.id_bytes,
            jump_count: numbers.jump_count,
            width: numbers.width,
            smallest: decoded(numbers.smallest),
            divisor: numbers.divisor,
            value_bytes: numbers.value_bytes,
            start: numbers.start,
        }
    }

    pub(crate) const fn numbers(&self) -> ffi::Column {
        ffi::Column {
            refusal: 0,
            number: 0,
            edition: self.edition,
            count: self.count,
            power: self.power,
            id_bytes: self.id_bytes,
            jump_count: self.jump_count,
            width: self.width,
            smallest: encoded(self.smallest),
            divisor: self.divisor,
            value_bytes: self.value_bytes,
            start: self.start,
        }
    }
}

/// The value v of a header number: 2v for v >= 0 and -2v-1 for v < 0. Each of the 2^64 numbers is
/// that of one value.
const fn decoded(number: u64) -> i64 {
    (number >> 1) as i64 ^ -((number & 1) as i64)
}

/// The header number of a value.
const fn encoded(value: i64) -> u64 {
    (value << 1 ^ value >> 63) as u64
}

#[cfg(test)]
mod tests {
    use super::{decoded, encoded};

    #[test]
    fn values_as_header_numbers() {
        for (value, number) in [
            (0, 0),
            (-1, 1),
            (1, 2),
            (135, 270),
            (i64::MAX, u64::MAX - 1),
            (i64::MIN, u64::MAX),
        ] {
            assert_eq!(encoded(value), number);
            assert_eq!(decoded(number), value);
        }
    }
}
