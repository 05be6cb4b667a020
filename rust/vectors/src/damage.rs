//! Columns taken apart and changed.

/// A small generator, for choices (splitmix).
pub struct Random(pub u64);

impl Random {
    pub fn next(&mut self) -> u64 {
        self.0 = self.0.wrapping_add(0x9E37_79B9_7F4A_7C15);
        let mixed = (self.0 ^ self.0 >> 30).wrapping_mul(0xBF58_476D_1CE4_E5B9);
        let mixed = (mixed ^ mixed >> 27).wrapping_mul(0x94D0_49BB_1331_11EB);
        mixed ^ mixed >> 31
    }

    pub fn below(&mut self, bound: usize) -> usize {
        (self.next() % bound as u64) as usize
    }

    pub fn of<T: Copy>(&mut self, choices: &[T]) -> T {
        choices[self.below(choices.len())]
    }
}

/// A number in groups of seven bits.
pub fn groups(mut number: u64) -> Vec<u8> {
    let mut bytes = Vec::new();
    while number >= 0x80 {
        bytes.push(number as u8 | 0x80);
        number >>= 7;
    }
    bytes.push(number as u8);
    bytes
}

/// A header of these nine numbers.
pub fn header_of(numbers: &[u64; 9]) -> Vec<u8> {
    numbers.iter().flat_map(|&number| groups(number)).collect()
}

/// The nine numbers of a column, and where each starts; the tenth place is that after them.
pub fn numbers_of(bytes: &[u8]) -> ([u64; 9], [usize; 10]) {
    let (mut numbers, mut places) = ([0; 9], [0; 10]);
    let mut at = 0;
    for index in 0..9 {
        places[index] = at;
        let len = bytes[at..]
            .iter()
            .position(|&byte| byte < 0x80)
            .expect("a number")
            + 1;
        for (i, &byte) in bytes[at..at + len].iter().enumerate() {
            numbers[index] |= u64::from(byte & 0x7F) << (7 * i);
        }
        at += len;
    }
    places[9] = at;
    (numbers, places)
}

/// The column with other bytes in place of a header number.
pub fn with_bytes(bytes: &[u8], index: usize, number: &[u8]) -> Vec<u8> {
    let (_, places) = numbers_of(bytes);
    [&bytes[..places[index]], number, &bytes[places[index + 1]..]].concat()
}

/// The column with another header number.
pub fn with_number(bytes: &[u8], index: usize, number: u64) -> Vec<u8> {
    with_bytes(bytes, index, &groups(number))
}

/// The bytes with one of them changed.
pub fn flipped(bytes: &[u8], at: usize, by: u8) -> Vec<u8> {
    let mut changed = bytes.to_vec();
    changed[at] ^= by;
    changed
}

/// The bytes with others from a place on.
pub fn put(bytes: &[u8], at: usize, others: &[u8]) -> Vec<u8> {
    let mut changed = bytes.to_vec();
    changed[at..at + others.len()].copy_from_slice(others);
    changed
}

/// Where the id section and the value section start.
pub fn sections(bytes: &[u8]) -> (usize, usize) {
    let (numbers, places) = numbers_of(bytes);
    (places[9], places[9] + numbers[3] as usize)
}

/// A section with the other byte order: every short, int and long turned, and no rank.
pub fn turned(section: &[u8], power: u32) -> Vec<u8> {
    let turn = |bytes: &[u8], size: usize| -> Vec<u8> {
        bytes
            .chunks(size)
            .flat_map(|it| it.iter().rev().copied())
            .collect()
    };
    let mut out = Vec::new();
    let mut at = 0;
    loop {
        let short = |at: usize| usize::from(section[at]) | usize::from(section[at + 1]) << 8;
        let (number, count) = (short(at), short(at + 2) + 1);
        out.extend(turn(&section[at..at + 4], 2));
        at += 4;
        if number == 32_767 {
            out.extend(turn(&section[at..at + 2], 2));
            out.extend(turn(&section[at + 2..], 4));
            return out;
        }
        let ranks = if power > 0 { 1 << (17 - power) } else { 0 };
        match count {
            1..=4095 => {
                out.extend(turn(&section[at..at + 2 * count], 2));
                at += 2 * count;
            }
            65_536 => {}
            _ => {
                out.extend(&section[at..at + ranks]);
                out.extend(turn(&section[at + ranks..at + ranks + 8192], 8));
                at += ranks + 8192;
            }
        }
    }
}
