//! Columns to measure on, and ids to ask them for.

use signalfern::{Edition, RUN_LENGTH};

/// Look-ups in one run.
pub const LOOK_UPS: usize = 1_000;

/// What the blocks of a column are.
#[derive(Clone, Copy)]
pub enum Shape {
    /// 1000 ids a block.
    Sparse,
    /// Half of each block.
    Dense,
    /// Every second block, whole.
    Full,
    /// All of these in turns, with blocks between that are missing.
    Mixed,
    /// Just so many ids a block.
    Counted(u32),
}

impl Shape {
    /// The kinds of block, and all together, by name.
    pub const EACH: [(&'static str, Self); 4] = [
        ("sparse", Self::Sparse),
        ("dense", Self::Dense),
        ("full", Self::Full),
        ("mixed", Self::Mixed),
    ];

    /// How many places of this block are listed.
    fn listed(self, block: u32) -> u32 {
        match (self, block % 8) {
            (Self::Sparse, _) => 1000,
            (Self::Dense, _) => 32_768,
            (Self::Full, odd) => 65_536 * (1 - odd % 2),
            (Self::Mixed, 0 | 4) => 1000,
            (Self::Mixed, 1 | 5) => 32_768,
            (Self::Mixed, 2 | 6) => 65_536,
            (Self::Mixed, _) => 0,
            (Self::Counted(count), _) => count,
        }
    }
}

/// The order in which ids are asked for.
#[derive(Clone, Copy, PartialEq)]
pub enum Order {
    Random,
    Ascending,
}

impl Order {
    pub fn name(self) -> &'static str {
        match self {
            Self::Random => "random",
            Self::Ascending => "ascending",
        }
    }
}

/// A list of pairs and its column.
pub struct Input {
    pub edition: Edition,
    pub shape: Shape,
    pub ids: Vec<u32>,
    pub values: Vec<i64>,
    pub bytes: Vec<u8>,
}

impl Input {
    /// Whole blocks, until there are at least so many pairs. Of edition 1.
    pub fn new(shape: Shape, pairs: usize, values: Values) -> Self {
        Self::of_edition(shape, pairs, values, Edition::Plain)
    }

    /// The same list in an edition.
    pub fn of_edition(shape: Shape, pairs: usize, values: Values, edition: Edition) -> Self {
        let mut random = Random(7);
        let mut ids = Vec::new();
        for block in 0.. {
            if ids.len() >= pairs {
                break;
            }
            let places = places(&mut random, shape.listed(block));
            ids.extend(places.map(|place| (block << 16) | place));
        }
        let values = values.list(&mut random, ids.len());
        let bytes = signalfern::write_to_vec(&ids, &values, edition, 9).expect("a list of pairs");
        Self {
            edition,
            shape,
            ids,
            values,
            bytes,
        }
    }

    /// Listed ids.
    pub fn hits(&self, count: usize, order: Order) -> Vec<u32> {
        let mut random = Random(8);
        let pick = || self.ids[(random.next() >> 8) as usize % self.ids.len()];
        Self::ordered(std::iter::repeat_with(pick).take(count).collect(), order)
    }

    /// Ids between the listed ones.
    pub fn misses(&self, count: usize, order: Order) -> Vec<u32> {
        let mut random = Random(9);
        // Up to the last block's end, and for full blocks one block more.
        let full = matches!(self.shape, Shape::Full | Shape::Counted(65_536));
        let most = (self.ids.last().map_or(0, |last| last >> 16) as usize + 1) << 16;
        let most = most + usize::from(full) * 65_536;
        let picks = std::iter::repeat_with(|| ((random.next() >> 8) as usize % most) as u32);
        let absent = picks.filter(|id| self.ids.binary_search(id).is_err());
        Self::ordered(absent.take(count).collect(), order)
    }

    /// Ascending within each run, so that every run goes over the whole column.
    fn ordered(mut ids: Vec<u32>, order: Order) -> Vec<u32> {
        if order == Order::Ascending {
            ids.chunks_mut(LOOK_UPS).for_each(<[u32]>::sort_unstable);
        }
        ids
    }
}

/// So many places of a block, each choice as likely as any other.
fn places(random: &mut Random, mut wanted: u32) -> impl Iterator<Item = u32> + '_ {
    (0..65_536).filter(move |place| {
        let taken = random.next() % u64::from(65_536 - place) < u64::from(wanted);
        wanted -= u32::from(taken);
        taken
    })
}

/// What the values of a column are.
#[derive(Clone, Copy)]
pub enum Values {
    /// Any with stored numbers of so many bits: after two or three of them the divisor is 1.
    Any(u32),
    /// Multiples of a step, of 12 bits, with a rest that all of them share: the divisor is the step.
    Steps { step: i64, rest: i64 },
    /// The same without a rest, and one more in the last: only there the divisor falls to 1.
    LastBeside { step: i64 },
    /// The smallest and the greatest value by turns: divisor 2^64 - 1.
    Extremes,
    /// So many distinct ones, whose differences to the smallest take so many bits.
    Few { distinct: usize, width: u32 },
    /// Even ones from 0 to 14, and an odd one above 2^60 in each sixth run of edition 3, a greater one
    /// each time.
    TinyAndHuge,
}

impl Values {
    pub const BY_DIVISOR: [(&str, Self); 6] = [
        ("any", Self::Any(12)),
        ("hundreds", Self::Steps { step: 100, rest: 0 }),
        ("hundreds and 7", Self::Steps { step: 100, rest: 7 }),
        (
            "multiples of 2^32 - 5",
            Self::Steps {
                step: (1 << 32) - 5,
                rest: 0,
            },
        ),
        ("hundreds, not the last", Self::LastBeside { step: 100 }),
        ("smallest and greatest", Self::Extremes),
    ];

    fn list(self, random: &mut Random, count: usize) -> Vec<i64> {
        match self {
            Self::Any(width) => any(random, count, width),
            Self::Steps { step, rest } => {
                let numbers = any(random, count, 12).into_iter();
                numbers.map(|number| number * step + rest).collect()
            }
            Self::LastBeside { step } => {
                let mut values = Self::Steps { step, rest: 0 }.list(random, count);
                if let Some(last) = values.last_mut() {
                    *last += 1;
                }
                values
            }
            Self::Extremes => (0..count)
                .map(|index| [i64::MIN, i64::MAX][index % 2])
                .collect(),
            Self::Few { distinct, width } => {
                // Each of them once, and then any.
                let few = few(random, distinct, width);
                let mut values = few.clone();
                values.resize_with(count, || few[(random.next() >> 8) as usize % distinct]);
                values
            }
            Self::TinyAndHuge => {
                let mut values: Vec<i64> =
                    (0..count).map(|_| (random.next() % 8) as i64 * 2).collect();
                let huge = values.iter_mut().skip(7 * RUN_LENGTH / 2);
                for (value, more) in huge.step_by(6 * RUN_LENGTH).zip(0..) {
                    *value = (1 << 60) + 2 * more + 1;
                }
                values
            }
        }
    }
}

/// Values whose differences to the smallest take just so many bits; some are below 0.
fn any(random: &mut Random, count: usize, width: u32) -> Vec<i64> {
    let most = u64::MAX.checked_shr(64 - width).unwrap_or(0);
    let smallest = if width < 63 { -900 } else { i64::MIN };
    let value = |difference: u64| smallest.wrapping_add(difference as i64);
    let mut next = || value((random.next() ^ random.next() << 32) & most);
    let mut values: Vec<i64> = (0..count).map(|_| next()).collect();
    if let [first, .., last] = values.as_mut_slice() {
        (*first, *last) = (value(0), value(most));
    }
    values
}

/// Just so many distinct values, two or more, of which the first and the last differ by just so many bits.
fn few(random: &mut Random, distinct: usize, width: u32) -> Vec<i64> {
    let mut few = any(random, 2, width);
    while few.len() < distinct {
        let next = any(random, 3, width)[1];
        if !few.contains(&next) {
            few.insert(1, next);
        }
    }
    few
}

/// A small generator (xorshift with a multiplied output).
struct Random(u64);

impl Random {
    fn next(&mut self) -> u64 {
        self.0 ^= self.0 >> 12;
        self.0 ^= self.0 << 25;
        self.0 ^= self.0 >> 27;
        self.0.wrapping_mul(0x2545_F491_4F6C_DD1D) >> 8
    }
}
