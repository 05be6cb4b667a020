//! Bare id sections, as another maker sends them.

use std::error::Error;
use std::fmt;

use crate::ffi;

/// The byte that comes first in a section's shorts, ints and longs. Ranks are high byte first in both.
#[derive(Clone, Copy, Debug, Default, PartialEq, Eq, Hash)]
pub enum ByteOrder {
    /// The low one, as Lucene 9 writes them, and as a column has them.
    #[default]
    LowFirst,
    /// The high one, as Lucene 8 writes them.
    HighFirst,
}

/// A bare id section: the bytes of Lucene's `IndexedDISI`, and the two numbers that go with them.
///
/// ```
/// use signalfern::{ByteOrder, Fault, Reason, Section};
///
/// // Block 0 with the places 2 and 7, and the end block. One block has no jump entries.
/// let bytes = [0, 0, 1, 0, 2, 0, 7, 0, 0xFF, 0x7F, 0, 0, 0xFF, 0xFF];
/// let section = Section { bytes: &bytes, jump_count: 0, power: 9, order: ByteOrder::LowFirst };
/// assert_eq!(section.judge(), Ok(2));
///
/// let cut = Section { bytes: &bytes[..10], ..section };
/// let fault = Fault::At { reason: Reason::CutOff, place: 8 };
/// assert_eq!(cut.judge(), Err(fault));
/// ```
#[derive(Clone, Copy, Debug, PartialEq, Eq)]
#[must_use]
pub struct Section<'a> {
    /// Blocks, end block and jump entries.
    pub bytes: &'a [u8],
    /// How many jump entries there are.
    pub jump_count: u64,
    /// The rank power: 0 for no ranks, or 7 to 15.
    pub power: u64,
    /// The byte order.
    pub order: ByteOrder,
}

impl Section<'_> {
    /// Judges the section, and gives its count of ids. Accepted bytes are the section of just one list
    /// of ids, with this many jump entries at this power. The time grows with the bytes and not with
    /// the ids.
    ///
    /// # Errors
    ///
    /// The first [`Fault`], in the order of its tests, block by block.
    pub fn judge(&self) -> Result<u64, Fault> {
        let high_first = self.order == ByteOrder::HighFirst;
        let judged = ffi::judge_section(self.bytes, self.jump_count, self.power, high_first);
        match (judged.kind, Reason::from_number(judged.reason)) {
            (0, _) => Ok(judged.number),
            (1, Some(reason)) => Err(Fault::At {
                reason,
                // The library is for 64-bit machines alone.
                place: judged.place as usize,
            }),
            _ => Err(Fault::Header),
        }
    }
}

/// What is wrong with a section.
#[derive(Clone, Copy, Debug, PartialEq, Eq, Hash)]
#[must_use]
pub enum Fault {
    /// The count of jump entries or the rank power is none that a section can have.
    Header,
    /// The bytes are wrong.
    At {
        /// What is wrong.
        reason: Reason,
        /// Where, from 0: the start of the faulty block; of the first jump entry that is wrong or cut
        /// off, or of all where their count is wrong; of the bytes left over.
        place: usize,
    },
}

/// Why a section is faulty, in the order in which it is tested.
#[derive(Clone, Copy, Debug, PartialEq, Eq, PartialOrd, Ord, Hash)]
pub enum Reason {
    /// The bytes end within a block. One numbered 32767 is the end block: six bytes, whatever its count says.
    CutOff,
    /// A block's number is not above the one before it, or is 32766 or above 32767.
    BlockOrder,
    /// The places of a sparse block do not ascend.
    PlaceOrder,
    /// The ones of a dense block are not as many as its ids.
    Ones,
    /// A rank of a dense block is not the count of ones before its stride.
    Rank,
    /// A block numbered 32767, which is always taken for the end block, is not it.
    EndBlock,
    /// There are more or fewer jump entries, or one is wrong or cut off.
    Jumps,
    /// Bytes follow the jump entries.
    LeftOver,
}

impl Reason {
    /// All of them.
    pub const EACH: [Self; 8] = [
        Self::CutOff,
        Self::BlockOrder,
        Self::PlaceOrder,
        Self::Ones,
        Self::Rank,
        Self::EndBlock,
        Self::Jumps,
        Self::LeftOver,
    ];

    /// The reason with this number, 1 to 8 in the order of the tests.
    ///
    /// ```
    /// use signalfern::Reason;
    ///
    /// assert_eq!(Reason::from_number(5), Some(Reason::Rank));
    /// assert!(Reason::EACH.iter().all(|it| Reason::from_number(it.number()) == Some(*it)));
    /// assert_eq!((Reason::from_number(0), Reason::from_number(9)), (None, None));
    /// ```
    #[must_use]
    pub fn from_number(number: u64) -> Option<Self> {
        let index = usize::try_from(number.checked_sub(1)?).ok()?;
        Self::EACH.get(index).copied()
    }

    /// Its number, 1 to 8.
    #[must_use]
    pub const fn number(self) -> u64 {
        self as u64 + 1
    }

    /// Its name.
    #[must_use]
    pub const fn name(self) -> &'static str {
        match self {
            Self::CutOff => "CUT_OFF",
            Self::BlockOrder => "BLOCK_ORDER",
            Self::PlaceOrder => "PLACE_ORDER",
            Self::Ones => "ONES",
            Self::Rank => "RANK",
            Self::EndBlock => "END_BLOCK",
            Self::Jumps => "JUMPS",
            Self::LeftOver => "LEFT_OVER",
        }
    }
}

/// A sentence that says what is wrong.
impl fmt::Display for Reason {
    fn fmt(&self, f: &mut fmt::Formatter<'_>) -> fmt::Result {
        f.write_str(match self {
            Self::CutOff => "the bytes end within a block, or within the six bytes of the end block",
            Self::BlockOrder => {
                "the block's number is not above the one before it, or is 32766 or above 32767, which no \
                 block has"
            }
            Self::PlaceOrder => "the places of the block do not ascend",
            Self::Ones => "the block's bitmap has more or fewer ones than the block has ids",
            Self::Rank => "a rank of the block is not the count of ones before its stride",
            Self::EndBlock => {
                "the end block, which a block numbered 32767 always is, is not FF 7F 00 00 FF FF, or 7F FF \
                 00 00 FF FF high byte first"
            }
            Self::Jumps => {
                "the jump entries are not those of the blocks: their count, or the one at this place"
            }
            Self::LeftOver => "bytes follow the jump entries",
        })
    }
}

impl fmt::Display for Fault {
    fn fmt(&self, f: &mut fmt::Formatter<'_>) -> fmt::Result {
        match self {
            Self::Header => write!(
                f,
                "a section has 0 to 32767 jump entries, and a rank power of 0 or 7 to 15"
            ),
            Self::At { reason, place } => write!(f, "at byte {place}: {reason}"),
        }
    }
}

impl Error for Fault {}
