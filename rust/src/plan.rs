//! Plans: a table of few distinct values, which anybody may propose and the writer checks.

use crate::calls::{len, to_vec};
use crate::{ffi, Error, Refusal, MAX_TABLE};

/// Proposes a plan for the values: the table of the distinct ones, ascending, in the first places of `table`,
/// wherever [`write_planned`] accepts it; and else none, which is plain. Gives how many entries it has, 0 for
/// plain. The places of `table` after them stay as they were.
///
/// ```
/// let mut table = [7; signalfern::MAX_TABLE];
/// // Two bits for each of a thousand in place of 41.
/// let values: Vec<i64> = (0..1000).map(|i| [-1, 0, 1, 1 << 40][i % 4]).collect();
/// assert_eq!(signalfern::plan(&values, &mut table)?, 4);
/// assert_eq!(table[..5], [-1, 0, 1, 1 << 40, 7]);
/// // Too few values for a table to be worth its bytes.
/// assert_eq!(signalfern::plan(&[5, 6, 5, 6, 3000], &mut table)?, 0);
/// # Ok::<(), signalfern::Refusal>(())
/// ```
///
/// # Errors
///
/// [`Refusal::Buffer`] where `table` is shorter than [`MAX_TABLE`]; it then stays as it was.
pub fn plan(values: &[i64], table: &mut [i64]) -> Result<usize, Refusal> {
    len(ffi::plan(values, table))
}

/// The plan for the values in a vector of just its entries, empty for plain. See [`plan()`].
///
/// ```
/// let values: Vec<i64> = (0..1000).map(|i| [1 << 40, 0, -1][i % 3]).collect();
/// assert_eq!(signalfern::plan_to_vec(&values)?, [-1, 0, 1 << 40]);
/// assert!(signalfern::plan_to_vec(&[])?.is_empty());
/// # Ok::<(), signalfern::Error>(())
/// ```
///
/// # Errors
///
/// [`Error::Memory`].
pub fn plan_to_vec(values: &[i64]) -> Result<Vec<i64>, Error> {
    let mut table = [0; MAX_TABLE];
    let entries = plan(values, &mut table)?;
    let mut plan = Vec::new();
    plan.try_reserve_exact(entries)?;
    plan.extend_from_slice(&table[..entries]);
    Ok(plan)
}

/// Writes the column of the pairs by a plan, to the front of `out`, and gives its byte count. The bytes of
/// `out` after it stay as they were.
///
/// A table gives a column of [`Edition::Table`](crate::Edition::Table), and an empty one, which is plain, one of
/// [`Edition::Plain`](crate::Edition::Plain). Plain is always accepted; a table exactly if it has 2 to
/// [`MAX_TABLE`] entries, ascends strictly, holds every value, has no entry that is no value, and the column is
/// shorter than the plain one. So whoever made the plan need not be trusted.
///
/// ```
/// use signalfern::{Column, Edition, Refusal};
///
/// let (ids, values) = ([0, 2, 7, 9], [1, i64::MIN, 0, 1]);
/// let mut out = [0xAA; 70];
/// assert_eq!(signalfern::write_planned(&ids, &values, &[i64::MIN, 0, 1], 9, &mut out)?, 52);
/// assert_eq!(Column::open(&out[..52])?.edition(), Edition::Table);
/// assert_eq!(signalfern::look_up(&out[..52], 2)?.value(), Some(i64::MIN));
/// // By plain each value takes 64 bits.
/// assert_eq!(signalfern::write_planned(&ids, &values, &[], 9, &mut out)?, 68);
/// // A table without 0, and one of which 7 is not used.
/// for table in [&[i64::MIN, 1][..], &[i64::MIN, 0, 1, 7]] {
///     let rejected = signalfern::write_planned(&ids, &values, table, 9, &mut out);
///     assert_eq!(rejected, Err(Refusal::Plan));
/// }
/// # Ok::<(), signalfern::Refusal>(())
/// ```
///
/// # Errors
///
/// The first that applies of [`Refusal::Lengths`], [`Refusal::Power`], [`Refusal::Order`],
/// [`Refusal::Range`], [`Refusal::Plan`] and [`Refusal::Room`]; `out` then stays as it was.
pub fn write_planned(
    ids: &[u32],
    values: &[i64],
    table: &[i64],
    power: u32,
    out: &mut [u8],
) -> Result<usize, Refusal> {
    len(ffi::write_planned(ids, values, table, power, out))
}

/// Writes the column of the pairs by a plan to a vector of just its length. See [`write_planned`].
///
/// # Errors
///
/// [`Error::Refused`] with those of [`write_planned`], but for [`Refusal::Room`]; [`Error::Memory`].
pub fn write_planned_to_vec(
    ids: &[u32],
    values: &[i64],
    table: &[i64],
    power: u32,
) -> Result<Vec<u8>, Error> {
    to_vec(|out| write_planned(ids, values, table, power, out))
}
