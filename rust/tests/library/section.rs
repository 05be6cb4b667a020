//! Bare id sections judged (document 02, [9]): each reason alone and two at once, in both byte orders,
//! beside the reference; and the id sections of columns.

use crate::common::{few_ids, ids_of, Random, POWERS};
use signalfern::{ByteOrder, Column, Edition, Fault, Reason, Section};
use signalfern_reference::{judge_section, Judgement};

const ORDERS: [ByteOrder; 2] = [ByteOrder::LowFirst, ByteOrder::HighFirst];

/// A section and what goes with it, to be changed.
#[derive(Clone)]
struct Made {
    bytes: Vec<u8>,
    jump_count: u64,
    power: u32,
    order: ByteOrder,
    /// Where each block starts, and the end block last.
    starts: Vec<usize>,
}

impl Made {
    /// The id section of a column of these ids, brought into the byte order.
    fn new(ids: &[u32], power: u32, order: ByteOrder) -> Self {
        let bytes =
            signalfern::write_to_vec(ids, &vec![0; ids.len()], Edition::Plain, power).unwrap();
        let column = Column::open(&bytes).unwrap();
        let start = column.start() as usize;
        let bytes = bytes[start..start + column.id_bytes() as usize].to_vec();
        let mut made = Self {
            bytes,
            jump_count: column.jump_count(),
            power,
            order: ByteOrder::LowFirst,
            starts: Vec::new(),
        };
        made.find_starts();
        if order == ByteOrder::HighFirst {
            made.turn();
        }
        made
    }

    fn rank_bytes(&self) -> usize {
        if self.power == 0 {
            0
        } else {
            1 << (17 - self.power)
        }
    }

    fn find_starts(&mut self) {
        let mut at = 0;
        self.starts = vec![0];
        while self.short(at) != 32_767 {
            let count = self.short(at + 2) + 1;
            at += 4 + match count {
                1..=4095 => 2 * count,
                65_536 => 0,
                _ => self.rank_bytes() + 8192,
            };
            self.starts.push(at);
        }
    }

    fn short(&self, at: usize) -> usize {
        let bytes = [self.bytes[at], self.bytes[at + 1]];
        usize::from(match self.order {
            ByteOrder::LowFirst => u16::from_le_bytes(bytes),
            ByteOrder::HighFirst => u16::from_be_bytes(bytes),
        })
    }

    fn put_short(&mut self, at: usize, short: usize) {
        let bytes = match self.order {
            ByteOrder::LowFirst => (short as u16).to_le_bytes(),
            ByteOrder::HighFirst => (short as u16).to_be_bytes(),
        };
        self.bytes[at..at + 2].copy_from_slice(&bytes);
    }

    /// Every short, int and long the other way round; ranks stay.
    fn turn(&mut self) {
        let mut at = 0;
        let turn = |bytes: &mut [u8], len: usize| {
            bytes.chunks_exact_mut(len).for_each(<[u8]>::reverse);
        };
        for index in 0..self.starts.len() {
            let count = self.short(at + 2) + 1;
            let end = *self.starts.get(index + 1).unwrap_or(&(at + 6));
            let ranks = self.rank_bytes();
            turn(&mut self.bytes[at..at + 4], 2);
            if end - at == 4 + ranks + 8192 && count >= 4096 {
                turn(&mut self.bytes[at + 4 + ranks..end], 8);
            } else {
                turn(&mut self.bytes[at + 4..end], 2);
            }
            at = end;
        }
        turn(&mut self.bytes[at..], 4);
        self.order = ByteOrder::HighFirst;
    }

    fn entries(&self) -> usize {
        self.starts.last().unwrap() + 6
    }

    /// The library's judgement, which is the reference's.
    #[track_caller]
    fn judge(&self) -> Result<u64, (Reason, usize)> {
        let section = Section {
            bytes: &self.bytes,
            jump_count: self.jump_count,
            power: u64::from(self.power),
            order: self.order,
        };
        let judged = section.judge();
        let high = self.order == ByteOrder::HighFirst;
        let expected = judge_section(&self.bytes, self.jump_count, u64::from(self.power), high);
        let told = match judged {
            Ok(ids) => Judgement::Accepted(ids),
            Err(Fault::At { reason, place }) => Judgement::Faulty(reason.number(), place),
            Err(Fault::Header) => Judgement::Header,
        };
        assert_eq!(told, expected);
        judged.map_err(|fault| match fault {
            Fault::At { reason, place } => (reason, place),
            Fault::Header => panic!("power and count are within their limits"),
        })
    }

    /// A change of a copy, and the fault that it must be.
    #[track_caller]
    fn faulty(&self, change: impl FnOnce(&mut Self), reason: Reason, place: usize) {
        let mut changed = self.clone();
        change(&mut changed);
        assert_eq!(changed.judge(), Err((reason, place)), "{:?}", self.order);
    }
}

/// First, middle and last block of a kind: sparse 1, 4 and 9; dense 2, 5 and 10, and one full between.
fn nine_blocks(power: u32, order: ByteOrder) -> Made {
    let mut random = Random::new(9);
    let blocks = [
        (1, 300),
        (2, 5000),
        (4, 4095),
        (5, 65_535),
        (7, 65_536),
        (9, 20),
        (10, 4096),
    ];
    Made::new(&ids_of(&mut random, &blocks), power, order)
}

#[test]
fn each_reason_at_the_first_a_middle_and_the_last_block() {
    for order in ORDERS {
        for power in [0, 7, 9, 15] {
            let made = nine_blocks(power, order);
            let total = 300 + 5000 + 4095 + 65_535 + 65_536 + 20 + 4096;
            assert_eq!(made.judge(), Ok(total));
            let starts = made.starts.clone();
            let ranks = made.rank_bytes();
            for block in [0, 2, 5] {
                let at = starts[block];
                // The second place as the first.
                let first = made.short(at + 4);
                made.faulty(|it| it.put_short(at + 6, first), Reason::PlaceOrder, at);
            }
            for block in [1, 3, 6] {
                let at = starts[block];
                let last = at + 4 + ranks + 8191;
                made.faulty(|it| it.bytes[last] ^= 0x10, Reason::Ones, at);
                // The first rank, and one in the middle.
                for low in (at + 5..at + 4 + ranks).step_by((ranks / 2).max(2)) {
                    made.faulty(|it| it.bytes[low] ^= 1, Reason::Rank, at);
                }
                // A one moved over a stride's border: the ones are as many, a rank is not.
                if ranks > 0 && ranks < 1024 {
                    let bitmap = at + 4 + ranks;
                    let stride = (1_usize << power) / 8;
                    let moved = |it: &mut Made| {
                        let full = |it: &Made, from: usize| {
                            (from..from + stride).find(|&b| it.bytes[b] != 0).unwrap()
                        };
                        let from = full(it, bitmap);
                        it.bytes[from] &= it.bytes[from] - 1;
                        let free = |b: &usize| it.bytes[*b] != 0xFF;
                        let to = (bitmap + stride..bitmap + 8192).find(free).unwrap();
                        it.bytes[to] |= it.bytes[to] + 1;
                    };
                    if block != 3 {
                        made.faulty(moved, Reason::Rank, at);
                    }
                }
            }
            for (block, &at) in starts.iter().enumerate() {
                if block + 1 == starts.len() {
                    continue;
                }
                for number in [32_766, 32_768, 65_535] {
                    made.faulty(|it| it.put_short(at, number), Reason::BlockOrder, at);
                }
                if block > 0 {
                    let before = made.short(starts[block - 1]);
                    made.faulty(|it| it.put_short(at, before), Reason::BlockOrder, at);
                }
                made.faulty(|it| it.put_short(at, 32_767), Reason::EndBlock, at);
            }
            let end = *starts.last().unwrap();
            made.faulty(|it| it.put_short(end + 2, 1), Reason::EndBlock, end);
            made.faulty(|it| it.put_short(end + 4, 65_534), Reason::EndBlock, end);
            let entries = made.entries();
            for jumps in [0, 1, made.jump_count - 1, made.jump_count + 1, 32_767] {
                made.faulty(|it| it.jump_count = jumps, Reason::Jumps, entries);
            }
            for index in [0, 1, 6, 11] {
                for part in 0..8 {
                    let at = entries + 8 * index;
                    made.faulty(|it| it.bytes[at + part] ^= 1, Reason::Jumps, at);
                }
            }
            for more in [1, 8, 100] {
                let at = made.bytes.len();
                made.faulty(|it| it.bytes.resize(at + more, 0), Reason::LeftOver, at);
            }
        }
    }
}

/// A block that tells an id more or fewer than it holds: dense, its ones are unlike its count; sparse, the
/// block itself or what is then read behind it is faulty.
#[test]
fn block_counts_off_by_one() {
    for order in ORDERS {
        let made = nine_blocks(9, order);
        let blocks = made.starts.len() - 1;
        for (block, &at) in made.starts[..blocks].iter().enumerate() {
            let told = made.short(at + 2);
            for wrong in [told.wrapping_sub(1), told + 1] {
                if wrong > 65_535 {
                    continue;
                }
                let mut changed = made.clone();
                changed.put_short(at + 2, wrong);
                let judged = changed.judge();
                if told >= 4096 && (4095..65_535).contains(&wrong) {
                    assert_eq!(judged, Err((Reason::Ones, at)), "block {block}");
                } else {
                    assert!(judged.is_err_and(|(_, place)| place >= at), "block {block}");
                }
            }
        }
    }
}

/// The tests' order decides, then the blocks' order.
#[test]
fn two_faults_at_once() {
    for order in ORDERS {
        let made = nine_blocks(9, order);
        let (sparse, dense, later) = (made.starts[0], made.starts[1], made.starts[2]);
        let rank = |it: &mut Made| it.bytes[dense + 5] ^= 1;
        let ones = |it: &mut Made| it.bytes[dense + 4 + 256] ^= 1;
        let number = |it: &mut Made| it.put_short(dense, 1);
        let cut = |it: &mut Made| it.bytes.truncate(dense + 4 + 256 + 8191);
        let places = |it: &mut Made| it.put_short(later + 6, 0);
        let jumps = |it: &mut Made| it.jump_count += 1;
        let left = |it: &mut Made| it.bytes.push(0);
        made.faulty(|it| (rank(it), ones(it)).0, Reason::Ones, dense);
        made.faulty(|it| (ones(it), number(it)).0, Reason::BlockOrder, dense);
        made.faulty(|it| (number(it), cut(it)).0, Reason::CutOff, dense);
        made.faulty(|it| (places(it), rank(it)).0, Reason::Rank, dense);
        made.faulty(|it| (jumps(it), places(it)).0, Reason::PlaceOrder, later);
        made.faulty(|it| (left(it), jumps(it)).0, Reason::Jumps, made.entries());
        let first = made.short(sparse + 4);
        let early = |it: &mut Made| it.put_short(sparse + 6, first);
        made.faulty(|it| (early(it), cut(it)).0, Reason::PlaceOrder, sparse);
    }
}

#[test]
fn every_cut_of_a_small_section() {
    for order in ORDERS {
        let made = Made::new(&[3, 200, 70_000, 70_001, 300_000], 9, order);
        let whole = made.bytes.len();
        for cut in 0..whole {
            let block = made.starts.iter().rev().find(|&&at| at <= cut).unwrap();
            let entries = made.entries();
            let (reason, place) = match cut < entries {
                true => (Reason::CutOff, *block),
                false => (Reason::Jumps, entries + (cut - entries) / 8 * 8),
            };
            made.faulty(|it| it.bytes.truncate(cut), reason, place);
        }
    }
}

#[test]
fn limits_come_first() {
    let made = nine_blocks(9, ByteOrder::LowFirst);
    let section = |jump_count, power| Section {
        bytes: &made.bytes,
        jump_count,
        power,
        order: made.order,
    };
    for (jumps, power) in [
        (32_768, 9),
        (u64::MAX, 9),
        (12, 6),
        (12, 16),
        (12, u64::MAX),
        (12, 1 << 32 | 9),
    ] {
        assert_eq!(section(jumps, power).judge(), Err(Fault::Header));
        assert_eq!(judge_section(&[], jumps, power, false), Judgement::Header);
    }
    assert_eq!(
        section(12, 9).judge(),
        made.judge().map_err(|_| Fault::Header)
    );
}

#[test]
fn lists_of_all_shapes_and_changed_bytes() {
    let mut random = Random::new(90);
    let mut accepted = 0;
    for round in 0..400 {
        let ids = match round % 8 {
            0 => {
                let counts = [1, 4095, 4096, 30_000, 65_535, 65_536];
                let blocks = [0, 1, 3].map(|number| (number, random.pick(&counts)));
                ids_of(&mut random, &blocks)
            }
            _ => few_ids(&mut random, 40),
        };
        for order in ORDERS {
            let power = random.pick(&POWERS);
            let made = Made::new(&ids, power, order);
            assert_eq!(made.judge(), Ok(ids.len() as u64));
            for _ in 0..40 {
                let mut changed = made.clone();
                for _ in 0..=random.below(2) {
                    let at = random.below(changed.bytes.len());
                    changed.bytes[at] = random.next() as u8;
                }
                if random.one_in(4) {
                    changed
                        .bytes
                        .truncate(random.below(changed.bytes.len() + 1));
                }
                if random.one_in(6) {
                    changed.jump_count = random.below(8) as u64;
                }
                accepted += usize::from(changed.judge().is_ok());
            }
        }
    }
    assert!(accepted > 500, "{accepted}");
}

/// The check of a column accepts no id section that the judge calls faulty, and the other way round: with
/// all values equal, only the id section, n and J can be wrong.
#[test]
fn the_check_and_the_judge_agree() {
    let mut random = Random::new(91);
    let mut refused = 0;
    for _ in 0..300 {
        let ids = few_ids(&mut random, 60);
        let bytes = signalfern::write_to_vec(&ids, &vec![5; ids.len()], Edition::Plain, 9).unwrap();
        let column = Column::open(&bytes).unwrap();
        let start = column.start() as usize;
        for _ in 0..30 {
            let mut changed = bytes.clone();
            let at = start + random.below(bytes.len() - start);
            changed[at] = random.next() as u8;
            let section = Section {
                bytes: &changed[start..],
                jump_count: column.jump_count(),
                power: 9,
                order: ByteOrder::LowFirst,
            };
            let judged = section.judge() == Ok(ids.len() as u64);
            assert_eq!(judged, signalfern::check(&changed).is_ok());
            refused += usize::from(!judged);
        }
    }
    assert!(refused > 3000, "{refused}");
}
