//! The vectors of `conformance/`: made from seeds, answered by the reference, which was written from documents 01
//! and 02, and never by the library.
//!
//! `conformance/README.md` says what a vector is. [`files`] makes them all; [`answer`] asks any [`Maker`] for one.

mod answer;
mod by_reference;
mod calls;
mod damage;
mod given;
#[path = "../../src/bin/signalfern/conform/value.rs"]
#[allow(missing_docs)]
mod json;
mod maker;
mod numbers;
mod recipe;
mod reply;
mod samples;
#[path = "../../src/bin/signalfern/sha256.rs"]
#[allow(missing_docs)]
mod sha256;
mod shorten;
/// Where the tests of `sha256` look for it.
#[cfg(test)]
mod text {
    pub use crate::recipe::hex;
}

pub use answer::answer;
pub use by_reference::Reference;
pub use calls::files;
pub use json::Json;
pub use maker::{Header, Judged, Layered, Lists, Look, Maker, Part, Places, Refused};
pub use numbers::numbers_file;

/// What every place of a lent list holds before a call.
pub const BEFORE: u8 = 170;

#[cfg(test)]
mod tests;
