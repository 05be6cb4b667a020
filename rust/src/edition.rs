//! The editions of a column.

/// How a column stores its values. Every call takes columns of each edition, but for
/// [`first_between`](crate::first_between), which is for one of them; the writer is told one.
///
/// ```
/// use signalfern::{Column, Edition};
///
/// // Three bits would do for 0 to 7; Lucene has four.
/// let values = [0, 7, 3];
/// let plain = signalfern::write_to_vec(&[0, 2, 7], &values, Edition::Plain, 9)?;
/// let lucene = signalfern::write_to_vec(&[0, 2, 7], &values, Edition::Lucene, 9)?;
/// assert_eq!((Column::open(&plain)?.width(), Column::open(&lucene)?.width()), (3, 4));
/// assert_eq!(Column::open(&lucene)?.edition(), Edition::Lucene);
/// assert_eq!(signalfern::read_to_vecs(&plain)?, signalfern::read_to_vecs(&lucene)?);
/// # Ok::<(), signalfern::Error>(())
/// ```
#[derive(Clone, Copy, Debug, Default, PartialEq, Eq, Hash)]
#[non_exhaustive]
pub enum Edition {
    /// Edition 1: stored numbers of the least width from 0 to 64, high bit first.
    #[default]
    Plain,
    /// Edition 2: packed as Lucene 9 packs, low bit first, at the least of its widths (1, 2, 4, 8, 12,
    /// 16, 20, 24, 28, 32, 40, 48, 56 and 64), or 0.
    Lucene,
    /// Edition 3: runs of [`RUN_LENGTH`](crate::RUN_LENGTH) values, each packed as edition 1 with a width
    /// and a smallest value of its own, and a directory before them that tells the smallest and the
    /// greatest value of each. For columns that mix small and great values, and for
    /// [`first_between`](crate::first_between).
    ///
    /// ```
    /// use signalfern::{Column, Edition};
    ///
    /// // One great value among small ones: edition 1 gives each of them 41 bits.
    /// let ids: Vec<u32> = (0..100_000).collect();
    /// let values = ids.iter().map(|id| if *id == 500 { 1 << 40 } else { i64::from(id % 8) });
    /// let values: Vec<i64> = values.collect();
    /// let plain = signalfern::write_to_vec(&ids, &values, Edition::Plain, 9)?;
    /// let runs = signalfern::write_to_vec(&ids, &values, Edition::Runs, 9)?;
    /// assert_eq!(Column::open(&plain)?.value_bytes(), 41 * 100_000 / 8);
    /// // The first run has 41 bits for each of its values, the six others have 3.
    /// let packed = 41 * 16_384 / 8 + 3 * (100_000 - 16_384) / 8;
    /// assert_eq!(Column::open(&runs)?.value_bytes(), 7 * 25 + packed);
    /// assert_eq!(signalfern::read_to_vecs(&runs)?, (ids, values));
    /// # Ok::<(), signalfern::Error>(())
    /// ```
    Runs,
    /// Edition 4: a table of the distinct values, 2 to [`MAX_TABLE`](crate::MAX_TABLE) of them, and for each pair
    /// its value's place there, packed as edition 1 in the least width for the last place. For columns of few
    /// distinct values that lie far apart.
    ///
    /// A column has this edition only where it is then shorter than in edition 1. A writer that is told it
    /// writes edition 1 where that is not so; [`write_planned`](crate::write_planned) takes the table from its
    /// caller and refuses it there.
    ///
    /// ```
    /// use signalfern::{Column, Edition};
    ///
    /// let ids: Vec<u32> = (0..1000).collect();
    /// let values: Vec<i64> = ids.iter().map(|id| [0, 1, 100, 1 << 40][*id as usize % 4]).collect();
    /// let plain = signalfern::write_to_vec(&ids, &values, Edition::Plain, 9)?;
    /// let table = signalfern::write_to_vec(&ids, &values, Edition::Table, 9)?;
    /// assert_eq!(Column::open(&plain)?.value_bytes(), 41 * 1000 / 8);
    /// assert_eq!(Column::open(&table)?.value_bytes(), 4 * 8 + 2 * 1000 / 8);
    /// assert_eq!(signalfern::read_to_vecs(&table)?, (ids, values));
    ///
    /// // Two bits of two pairs are less than any table.
    /// let few = signalfern::write_to_vec(&[1, 2], &[5, 6], Edition::Table, 9)?;
    /// assert_eq!(Column::open(&few)?.edition(), Edition::Plain);
    /// # Ok::<(), signalfern::Error>(())
    /// ```
    Table,
}

impl Edition {
    /// The edition with this number, which is a column's first header number. None if there is no such
    /// edition.
    ///
    /// ```
    /// use signalfern::Edition;
    ///
    /// assert_eq!(Edition::from_number(2), Some(Edition::Lucene));
    /// assert_eq!(Edition::from_number(0), None);
    /// ```
    #[must_use]
    pub const fn from_number(number: u64) -> Option<Self> {
        match number {
            1 => Some(Self::Plain),
            2 => Some(Self::Lucene),
            3 => Some(Self::Runs),
            4 => Some(Self::Table),
            _ => None,
        }
    }

    /// Its number.
    #[must_use]
    pub const fn number(self) -> u32 {
        match self {
            Self::Plain => 1,
            Self::Lucene => 2,
            Self::Runs => 3,
            Self::Table => 4,
        }
    }
}
