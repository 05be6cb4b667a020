//! The sixteen refusals.

use std::error::Error;
use std::fmt;

/// Why a call refused. The order is that of document 01's table, and document 02 adds the last two. 5 is
/// not used: it was OFFSET, which cannot happen (document 02, request 7).
#[derive(Clone, Copy, Debug, PartialEq, Eq, Hash)]
#[non_exhaustive]
#[must_use]
pub enum Refusal {
    /// Ids and values differ in count.
    Lengths,
    /// The rank power is not allowed.
    Power,
    /// An id is not above the one before.
    Order {
        /// The first such index.
        index: usize,
    },
    /// An id is above [`MAX_ID`](crate::MAX_ID).
    Range {
        /// The first such index.
        index: usize,
    },
    /// The output is shorter than the column, or than the set.
    Room {
        /// The bytes of the column or of the set.
        needed: usize,
    },
    /// The bytes end before the last byte of a header number, or of a number of a set.
    Short {
        /// The byte count.
        bytes: usize,
    },
    /// A header number, or a number of a set, is not minimal, or is 2^64 or more.
    Number {
        /// The place, from 0, of the byte that decided it: the 0 that ends a number of several bytes,
        /// or the tenth byte of one that is not 1.
        place: usize,
    },
    /// The first header number, or what the writer was told, is the number of no edition; or it is not
    /// the one that [`first_between`](crate::first_between) is for.
    Edition,
    /// A header rule is broken.
    Header,
    /// Header, id section and value section together are not the byte count.
    Length,
    /// The ids or the values buffer is shorter than the column's count of pairs, a list for a page's
    /// answers is shorter than its ids, or a table for the planner shorter than
    /// [`MAX_TABLE`](crate::MAX_TABLE).
    Buffer {
        /// The count of pairs that the header claims, that of the ids, or `MAX_TABLE`.
        needed: usize,
    },
    /// The bytes are no column of any pair list, or no set of any id list.
    Damaged,
    /// The looked-up id, or the target, is above [`MAX_ID`](crate::MAX_ID).
    Id,
    /// A step of the look-up failed.
    Broken,
    /// The target is below the last one answered.
    Back,
    /// The plan is rejected: see [`write_planned`](crate::write_planned).
    Plan,
}

impl Refusal {
    /// The refusal with this number in documents 01 and 02, and the number that comes with it (which does
    /// not matter where none does). None for a number that no refusal has.
    ///
    /// ```
    /// use signalfern::Refusal;
    ///
    /// assert_eq!(Refusal::from_number(3, 1), Some(Refusal::Order { index: 1 }));
    /// assert_eq!(Refusal::from_number(13, 0), Some(Refusal::Damaged));
    /// assert_eq!(Refusal::from_number(0, 0), None);
    /// assert_eq!(Refusal::from_number(5, 0), None);
    /// ```
    #[must_use]
    pub const fn from_number(number: u64, with: u64) -> Option<Self> {
        // The library is for 64-bit machines alone.
        let with = with as usize;
        Some(match number {
            1 => Self::Lengths,
            2 => Self::Power,
            3 => Self::Order { index: with },
            4 => Self::Range { index: with },
            // 5 is not used: it was OFFSET, which cannot happen (document 02, [7])
            6 => Self::Room { needed: with },
            7 => Self::Short { bytes: with },
            8 => Self::Number { place: with },
            9 => Self::Edition,
            10 => Self::Header,
            11 => Self::Length,
            12 => Self::Buffer { needed: with },
            13 => Self::Damaged,
            14 => Self::Id,
            15 => Self::Broken,
            16 => Self::Back,
            17 => Self::Plan,
            _ => return None,
        })
    }

    /// The refusal that the proved library gave.
    pub(crate) fn given(number: u64, with: u64) -> Self {
        Self::from_number(number, with)
            .unwrap_or_else(|| panic!("libsignalfern_c gave refusal {number}, unknown here"))
    }

    /// The number in documents 01 and 02, 1 to 17 without 5.
    #[must_use]
    pub const fn number(self) -> u64 {
        match self {
            Self::Lengths => 1,
            Self::Power => 2,
            Self::Order { .. } => 3,
            Self::Range { .. } => 4,
            // 5 is not used: it was OFFSET, which cannot happen (document 02, [7])
            Self::Room { .. } => 6,
            Self::Short { .. } => 7,
            Self::Number { .. } => 8,
            Self::Edition => 9,
            Self::Header => 10,
            Self::Length => 11,
            Self::Buffer { .. } => 12,
            Self::Damaged => 13,
            Self::Id => 14,
            Self::Broken => 15,
            Self::Back => 16,
            Self::Plan => 17,
        }
    }

    /// The number with the refusal: an index, a byte count, a place, the bytes or the places needed,
    /// or 0.
    #[must_use]
    pub const fn number_with(self) -> u64 {
        match self {
            Self::Order { index: with }
            | Self::Range { index: with }
            | Self::Room { needed: with }
            | Self::Short { bytes: with }
            | Self::Number { place: with }
            | Self::Buffer { needed: with } => with as u64,
            _ => 0,
        }
    }

    /// The name in documents 01 and 02.
    #[must_use]
    pub const fn name(self) -> &'static str {
        match self {
            Self::Lengths => "LENGTHS",
            Self::Power => "POWER",
            Self::Order { .. } => "ORDER",
            Self::Range { .. } => "RANGE",
            Self::Room { .. } => "ROOM",
            Self::Short { .. } => "SHORT",
            Self::Number { .. } => "NUMBER",
            Self::Edition => "EDITION",
            Self::Header => "HEADER",
            Self::Length => "LENGTH",
            Self::Buffer { .. } => "BUFFER",
            Self::Damaged => "DAMAGED",
            Self::Id => "ID",
            Self::Broken => "BROKEN",
            Self::Back => "BACK",
            Self::Plan => "PLAN",
        }
    }
}

/// A sentence that says what is wrong and, where that helps, what to do.
impl fmt::Display for Refusal {
    fn fmt(&self, f: &mut fmt::Formatter<'_>) -> fmt::Result {
        match self {
            Self::Lengths => write!(f, "there are not as many values as ids"),
            Self::Power => write!(f, "the rank power must be 0 (no ranks) or 7 to 15"),
            Self::Order { index } => write!(
                f,
                "ids must ascend, and the id at index {index} is not above the one before it"
            ),
            Self::Range { index } => write!(
                f,
                "the id at index {index} is above the greatest allowed, {}",
                crate::MAX_ID
            ),
            Self::Room { needed } => write!(
                f,
                "the output is too short: {needed} bytes are needed"
            ),
            Self::Short { bytes } => write!(
                f,
                "the bytes, {bytes} in all, end within a number of the header, or of a set: they are \
                 empty or cut off"
            ),
            Self::Number { place } => write!(
                f,
                "a number of the header, or of a set, is not in its shortest form or needs more than \
                 64 bits, by byte {place} (from 0): the bytes are damaged, or neither column nor set"
            ),
            Self::Edition => write!(
                f,
                "the edition is not 1 to 4, or not 3 where a value is searched for: this is no column, or \
                 one of another edition"
            ),
            Self::Header => write!(
                f,
                "the numbers of the header, or those told of an id section, break a rule (a limit, or \
                 sizes that do not agree)"
            ),
            Self::Length => write!(
                f,
                "the header tells of more or fewer bytes than there are: the column is cut off or \
                 something follows it"
            ),
            Self::Buffer { needed } => write!(
                f,
                "a lent list is too short for what goes into it: {needed} places are needed"
            ),
            Self::Damaged => write!(
                f,
                "the bytes are not the column of any list of pairs, or not the set of any list of ids"
            ),
            Self::Id => write!(
                f,
                "the id asked for is above the greatest allowed, {}",
                crate::MAX_ID
            ),
            Self::Broken => write!(
                f,
                "the look-up met bytes that cannot be right: the column is damaged"
            ),
            Self::Back => write!(
                f,
                "the target is below the last one answered: from a cursor, targets stand still or grow"
            ),
            Self::Plan => write!(
                f,
                "the plan is rejected: a table has 2 to {} entries that ascend, each value and no other, and \
                 makes the column shorter than edition 1 does",
                crate::MAX_TABLE
            ),
        }
    }
}

impl Error for Refusal {}

#[cfg(test)]
mod tests {
    use super::Refusal;

    #[test]
    fn numbers_go_there_and_back() {
        for number in (1..=4).chain(6..=17) {
            let refusal = Refusal::given(number, 77);
            assert_eq!(Refusal::from_number(number, 77), Some(refusal));
            assert_eq!(refusal.number(), number);
            let carries = matches!(number, 3 | 4 | 6 | 7 | 8 | 12);
            assert_eq!(refusal.number_with(), if carries { 77 } else { 0 });
            assert_eq!(refusal.to_string().contains("77"), carries);
            assert_eq!(refusal.name(), refusal.name().to_uppercase());
        }
    }

    #[test]
    fn a_number_outside_the_table_is_no_refusal() {
        for number in [0, 5, 18, u64::MAX] {
            assert_eq!(Refusal::from_number(number, 0), None);
        }
    }

    #[test]
    #[should_panic = "gave refusal 18"]
    fn an_archive_that_refuses_otherwise_is_no_match() {
        let _ = Refusal::given(18, 0);
    }
}
