//! SHA-256 (FIPS 180-4), so that a file can be told from one that was changed.

/// The first 32 bits of the fractional parts of the cube roots of the first 64 primes.
const ROUNDS: [u32; 64] = [
    0x428a2f98, 0x71374491, 0xb5c0fbcf, 0xe9b5dba5, 0x3956c25b, 0x59f111f1, 0x923f82a4, 0xab1c5ed5,
    0xd807aa98, 0x12835b01, 0x243185be, 0x550c7dc3, 0x72be5d74, 0x80deb1fe, 0x9bdc06a7, 0xc19bf174,
    0xe49b69c1, 0xefbe4786, 0x0fc19dc6, 0x240ca1cc, 0x2de92c6f, 0x4a7484aa, 0x5cb0a9dc, 0x76f988da,
    0x983e5152, 0xa831c66d, 0xb00327c8, 0xbf597fc7, 0xc6e00bf3, 0xd5a79147, 0x06ca6351, 0x14292967,
    0x27b70a85, 0x2e1b2138, 0x4d2c6dfc, 0x53380d13, 0x650a7354, 0x766a0abb, 0x81c2c92e, 0x92722c85,
    0xa2bfe8a1, 0xa81a664b, 0xc24b8b70, 0xc76c51a3, 0xd192e819, 0xd6990624, 0xf40e3585, 0x106aa070,
    0x19a4c116, 0x1e376c08, 0x2748774c, 0x34b0bcb5, 0x391c0cb3, 0x4ed8aa4a, 0x5b9cca4f, 0x682e6ff3,
    0x748f82ee, 0x78a5636f, 0x84c87814, 0x8cc70208, 0x90befffa, 0xa4506ceb, 0xbef9a3f7, 0xc67178f2,
];

/// The first 32 bits of the fractional parts of the square roots of the first 8 primes.
const START: [u32; 8] = [
    0x6a09e667, 0xbb67ae85, 0x3c6ef372, 0xa54ff53a, 0x510e527f, 0x9b05688c, 0x1f83d9ab, 0x5be0cd19,
];

const BLOCK: usize = 64;

/// A digest.
pub type Digest = [u8; 32];

/// The digest of these bytes.
pub fn digest(bytes: &[u8]) -> Digest {
    let mut hasher = Hasher::new();
    hasher.take(bytes);
    hasher.digest()
}

/// A digest under way.
pub struct Hasher {
    state: [u32; 8],
    /// The bytes after the last whole block.
    rest: Vec<u8>,
    len: u64,
}

impl Hasher {
    pub fn new() -> Self {
        Self {
            state: START,
            rest: Vec::with_capacity(BLOCK),
            len: 0,
        }
    }

    /// Takes more bytes.
    pub fn take(&mut self, bytes: &[u8]) {
        self.len += bytes.len() as u64;
        let missing = (BLOCK - self.rest.len()) % BLOCK;
        let (front, bytes) = bytes.split_at(missing.min(bytes.len()));
        self.rest.extend(front);
        if self.rest.len() == BLOCK {
            compress(&mut self.state, &self.rest);
            self.rest.clear();
        }
        let blocks = bytes.chunks_exact(BLOCK);
        self.rest.extend(blocks.remainder());
        for block in blocks {
            compress(&mut self.state, block);
        }
    }

    /// The digest of all of them.
    pub fn digest(mut self) -> Digest {
        // A one bit, zeros, and the count of bits, to fill one block more or two.
        let rest = &self.rest;
        let mut last = [0; 2 * BLOCK];
        last[..rest.len()].copy_from_slice(rest);
        last[rest.len()] = 0x80;
        let len = if rest.len() + 9 <= BLOCK {
            BLOCK
        } else {
            2 * BLOCK
        };
        let bits = self.len.wrapping_mul(8);
        last[len - 8..len].copy_from_slice(&bits.to_be_bytes());
        for block in last[..len].chunks_exact(BLOCK) {
            compress(&mut self.state, block);
        }
        let mut out = [0; 32];
        for (place, word) in out.chunks_exact_mut(4).zip(self.state) {
            place.copy_from_slice(&word.to_be_bytes());
        }
        out
    }
}

/// One block of 64 bytes.
fn compress(state: &mut [u32; 8], block: &[u8]) {
    let mut words = [0; 16];
    for (word, bytes) in words.iter_mut().zip(block.chunks_exact(4)) {
        *word = u32::from_be_bytes([bytes[0], bytes[1], bytes[2], bytes[3]]);
    }
    let mut turning = *state;
    for (turn, constants) in ROUNDS.chunks_exact(16).enumerate() {
        if turn > 0 {
            schedule(&mut words);
        }
        for (constant, word) in constants.iter().zip(words) {
            round(&mut turning, constant.wrapping_add(word));
        }
    }
    for (word, turned) in state.iter_mut().zip(turning) {
        *word = word.wrapping_add(turned);
    }
}

/// The next sixteen words of the message schedule.
fn schedule(words: &mut [u32; 16]) {
    for at in 0..16 {
        let (near, far) = (words[(at + 1) % 16], words[(at + 14) % 16]);
        let small = near.rotate_right(7) ^ near.rotate_right(18) ^ (near >> 3);
        let large = far.rotate_right(17) ^ far.rotate_right(19) ^ (far >> 10);
        words[at] = words[at]
            .wrapping_add(small)
            .wrapping_add(words[(at + 9) % 16])
            .wrapping_add(large);
    }
}

fn round(state: &mut [u32; 8], input: u32) {
    let [a, b, c, d, e, f, g, h] = *state;
    let turned = e.rotate_right(6) ^ e.rotate_right(11) ^ e.rotate_right(25);
    let chosen = (e & f) ^ (!e & g);
    let first = h
        .wrapping_add(turned)
        .wrapping_add(chosen)
        .wrapping_add(input);
    let turned = a.rotate_right(2) ^ a.rotate_right(13) ^ a.rotate_right(22);
    let majority = (a & b) ^ (a & c) ^ (b & c);
    let second = turned.wrapping_add(majority);
    *state = [
        first.wrapping_add(second),
        a,
        b,
        c,
        d.wrapping_add(first),
        e,
        f,
        g,
    ];
}

#[cfg(test)]
mod tests {
    use super::*;
    use crate::text::hex;

    /// However the bytes come, the digest is that of all of them at once.
    #[test]
    fn piece_by_piece() {
        let bytes: Vec<u8> = (0..1000_u32).map(|i| (i * 7 % 251) as u8).collect();
        for piece in [1, 3, 63, 64, 65, 127, 128, 200, 999] {
            let mut hasher = Hasher::new();
            bytes.chunks(piece).for_each(|part| hasher.take(part));
            assert_eq!(hasher.digest(), digest(&bytes), "{piece}");
        }
    }

    /// NIST's examples for FIPS 180 and messages of its SHAVS files.
    #[test]
    fn vectors_of_nist() {
        let two_blocks = "abcdefghbcdefghicdefghijdefghijkefghijklfghijklmghijklmn\
                          hijklmnoijklmnopjklmnopqklmnopqrlmnopqrsmnopqrstnopqrstu";
        let million = "a".repeat(1_000_000);
        for (message, expected) in [
            (
                &b""[..],
                "e3b0c44298fc1c149afbf4c8996fb92427ae41e4649b934ca495991b7852b855",
            ),
            (
                b"abc",
                "ba7816bf8f01cfea414140de5dae2223b00361a396177a9cb410ff61f20015ad",
            ),
            (
                b"abcdbcdecdefdefgefghfghighijhijkijkljklmklmnlmnomnopnopq",
                "248d6a61d20638b8e5c026930c3e6039a33ce45964ff2167f6ecedd419db06c1",
            ),
            (
                two_blocks.as_bytes(),
                "cf5b16a778af8380036ce59e7b0492370b249b11e8f07a51afac45037afee9d1",
            ),
            (
                million.as_bytes(),
                "cdc76e5c9914fb9281a1c7e284d73e67f1809a48a497200e046d39ccc7112cd0",
            ),
            (
                b"\xD3",
                "28969cdfa74a12c82f3bad960b0b000aca2ac329deea5c2328ebc6f2ba9802c1",
            ),
            (
                b"\x11\xAF",
                "5ca7133fa735326081558ac312c620eeca9970d1e70a4b95533d956f072d1f98",
            ),
        ] {
            assert_eq!(hex(&digest(message)), expected);
        }
    }
}
