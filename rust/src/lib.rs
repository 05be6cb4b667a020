//! Score columns: byte strings that hold pairs of an id and a signed 64-bit value, with the ids
//! strictly ascending.
//!
//! There are fifteen calls on columns: [`write()`] a column, or by a plan ([`write_planned`]), which a
//! planner proposes ([`plan()`]), [`check`] one, [`read`] it whole, [`look_up`] one id or a page of them
//! ([`look_up_page`]), find the [`next()`] listed one, read the pairs from an id on
//! ([`read_from`](read_from())), give the pair with an ordinal ([`pair_at`](pair_at())), find the first value
//! in a range ([`first_between`]), from an ordinal on too ([`first_between_from`]), look an id up in a column
//! with a correction on top ([`look_up_layered`]) and show the bytes that hold it ([`layered_values`]), and
//! [`Column::open`] for many such questions to the same columns. Each is a thin wrapper of a call that is
//! written and proved in Rattle: its answer, its refusal and every lent byte afterwards are those that
//! document 01 ("Full scope and exact rules"), the requests of document 02 and what was added to them fix, on
//! every input.
//! This wrapper, the C boundary below it and the compiler's back end are not proved; they are tested.
//!
//! Most programs want [`Checked`]: a column that was checked once, as a sorted map from ids to
//! values.
//!
//! ```
//! use signalfern::Edition;
//!
//! let ids = [0, 2, 7];
//! let values = [150, 140, 135];
//! let column = signalfern::write_to_vec(&ids, &values, Edition::Plain, 9)?;
//! assert_eq!(column.len(), 27);
//!
//! let scores = signalfern::Checked::new(&column)?;
//! assert_eq!((scores.get(7), scores.get(5)), (Some(135), None));
//! assert!(scores.iter().eq([(0, 150), (2, 140), (7, 135)]));
//!
//! assert_eq!(signalfern::check(&column)?, 3);
//! assert_eq!(signalfern::read_to_vecs(&column)?, (ids.to_vec(), values.to_vec()));
//! let answer = signalfern::look_up(&column, 7)?;
//! assert_eq!((answer.ordinal(), answer.value()), (Some(2), Some(135)));
//! # Ok::<(), signalfern::Error>(())
//! ```
//!
//! # Refusals
//!
//! What cannot be done is refused with one of sixteen [`Refusal`]s, tested in a fixed order, and a
//! refusal changes no lent byte.
//!
//! ```
//! use signalfern::{Edition, Refusal};
//!
//! let mut out = [0; 64];
//! let refusal = signalfern::write(&[4, 4], &[1, 2], Edition::Plain, 9, &mut out).unwrap_err();
//! assert_eq!(refusal, Refusal::Order { index: 1 });
//! assert_eq!((refusal.number(), refusal.name()), (3, "ORDER"));
//! assert_eq!(out, [0; 64]);
//! ```

#[cfg(not(all(
    any(target_arch = "x86_64", target_arch = "aarch64"),
    target_os = "linux"
)))]
compile_error!("the library is built for Linux on x86-64 and ARM64 alone");

mod between;
mod calls;
mod checked;
mod column;
mod edition;
mod error;
mod ffi;
mod layered;
mod layered_page;
mod layered_pairs;
mod layered_reading;
mod next;
mod page;
mod pair_at;
mod pairs;
mod plan;
mod read_from;
mod refusal;
mod section;
mod set;

pub use between::{first_between, first_between_from};
pub use calls::{check, look_up, read, read_to_vecs, write, write_pairs, write_to_vec, Answer};
pub use checked::Checked;
pub use column::{Column, Header};
pub use edition::Edition;
pub use error::Error;
pub use layered::{layered_values, look_up_layered, Layer, Layered, LayeredAnswer, LayeredRefusal};
pub use layered_page::{look_up_layered_page, LayeredPage, LayeredPageAnswer};
pub use layered_pairs::LayeredPairs;
pub use layered_reading::read_layered_from;
pub use next::{next, Candidate, Candidates, Cursor};
pub use page::{look_up_page, look_up_page_to_vec, Page, PageAnswer};
pub use pair_at::pair_at;
pub use pairs::Pairs;
pub use plan::{plan, plan_to_vec, write_planned, write_planned_to_vec};
pub use read_from::{read_from, Readout};
pub use refusal::Refusal;
pub use section::{ByteOrder, Fault, Reason, Section};
pub use set::{set_check, set_find, set_write, set_write_to_vec, Set};

/// The version of this package, which is that of the library in it.
pub const VERSION: &str = env!("CARGO_PKG_VERSION");

/// The greatest id.
pub const MAX_ID: u32 = 2_147_352_575;

/// The greatest count of pairs.
pub const MAX_COUNT: u64 = 2_147_352_576;

/// How many values a run of [`Edition::Runs`] has; the last one may have fewer.
pub const RUN_LENGTH: usize = 16_384;

/// How many entries a table of [`Edition::Table`] can have.
pub const MAX_TABLE: usize = 256;

/// The rank power that fits most columns, and Lucene's: a rank to every 512 places of a dense block.
pub const USUAL_POWER: u32 = 9;

/// Whether a rank power is allowed: 0 for no ranks, or 7 to 15.
///
/// ```
/// assert!(signalfern::power_allowed(0) && signalfern::power_allowed(9));
/// assert!(!signalfern::power_allowed(6) && !signalfern::power_allowed(16));
/// ```
#[must_use]
pub const fn power_allowed(power: u32) -> bool {
    power == 0 || (power >= 7 && power <= 15)
}
