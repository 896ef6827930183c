//! MD5 by RFC 1321, over at most 2^48 bytes.

use std::array;
use std::sync::LazyLock;

use crate::refusal::{Refusal, TOO_MUCH_HASHED};

const BLOCK: usize = 64;

/// The most bytes that a state takes.
const LIMIT: u64 = 1 << 48;

/// The table T of RFC 1321: the whole part of 2^32 times |sin(i)|, for i from 1 to 64 in radians.
static ADDENDS: LazyLock<[u32; 64]> = LazyLock::new(|| {
    array::from_fn(|i| {
        let sine = ((i + 1) as f64).sin().abs();
        (sine * 4_294_967_296.0) as u32
    })
});

/// How far each step rotates: a row for each round, repeated every four steps.
const SHIFTS: [[u32; 4]; 4] = [
    [7, 12, 17, 22],
    [5, 9, 14, 20],
    [4, 11, 16, 23],
    [6, 10, 15, 21],
];

/// The digest of `data`.
pub fn digest(data: &[u8]) -> Result<[u8; 16], Refusal> {
    let mut state = State::new();
    state.update(data)?;
    Ok(state.finish())
}

/// A digest in lower-case hex.
pub fn hex(digest: [u8; 16]) -> String {
    digest.iter().map(|byte| format!("{byte:02x}")).collect()
}

/// The running state. Every value is one, also one that no data leads to.
#[derive(Clone, Debug)]
pub struct State {
    /// A, B, C, D after the whole blocks so far.
    pub words: [u32; 4],
    /// The first `count % 64` are the bytes after those blocks.
    pub pending: [u8; BLOCK],
    /// All bytes so far.
    pub count: u64,
}

impl State {
    /// The state before the first byte.
    pub fn new() -> Self {
        Self {
            words: [0x6745_2301, 0xefcd_ab89, 0x98ba_dcfe, 0x1032_5476],
            pending: [0; BLOCK],
            count: 0,
        }
    }

    /// Takes one more part; refused, with the state as it was, where that passes the limit. Once a
    /// block became whole, zeros stand after the pending bytes.
    pub fn update(&mut self, part: &[u8]) -> Result<(), Refusal> {
        let count = self.count.saturating_add(part.len() as u64);
        if count > LIMIT {
            return Err(TOO_MUCH_HASHED);
        }
        let held = self.held();
        self.count = count;

        let mut rest = part;
        if held > 0 {
            let (filling, after) = rest.split_at(rest.len().min(BLOCK - held));
            self.pending[held..held + filling.len()].copy_from_slice(filling);
            if held + filling.len() < BLOCK {
                return Ok(());
            }
            self.words = after_block(self.words, &self.pending);
            self.pending = [0; BLOCK];
            rest = after;
        }
        let (blocks, tail) = rest.as_chunks();
        for block in blocks {
            self.words = after_block(self.words, block);
            self.pending = [0; BLOCK];
        }
        self.pending[..tail.len()].copy_from_slice(tail);
        Ok(())
    }

    /// The digest of all parts so far.
    pub fn finish(&self) -> [u8; 16] {
        // The pending bytes, a bit of 1, zeros, and the length in bits, in one block or two.
        let held = self.held();
        let mut padded = [0; 2 * BLOCK];
        padded[..held].copy_from_slice(&self.pending[..held]);
        padded[held] = 0x80;
        let end = if held + 1 + 8 <= BLOCK {
            BLOCK
        } else {
            2 * BLOCK
        };
        let bits = self.count.wrapping_mul(8);
        padded[end - 8..end].copy_from_slice(&bits.to_le_bytes());

        let (blocks, _) = padded[..end].as_chunks();
        let words = blocks.iter().fold(self.words, after_block);
        let mut digest = [0; 16];
        for (bytes, word) in digest.chunks_exact_mut(4).zip(words) {
            bytes.copy_from_slice(&word.to_le_bytes());
        }
        digest
    }

    /// How many bytes are pending.
    fn held(&self) -> usize {
        (self.count % BLOCK as u64) as usize
    }
}

impl Default for State {
    fn default() -> Self {
        Self::new()
    }
}

/// The words after one more block.
fn after_block(words: [u32; 4], block: &[u8; BLOCK]) -> [u32; 4] {
    let (bytes, _) = block.as_chunks();
    let x: [u32; 16] = array::from_fn(|k| u32::from_le_bytes(bytes[k]));

    let mut new = words;
    new = after_round(0, new, f, |step| x[step]);
    new = after_round(1, new, g, |step| x[(1 + 5 * step) % 16]);
    new = after_round(2, new, h, |step| x[(5 + 3 * step) % 16]);
    new = after_round(3, new, i, |step| x[7 * step % 16]);
    array::from_fn(|k| words[k].wrapping_add(new[k]))
}

// The functions F, G, H and I of RFC 1321.

fn f(x: u32, y: u32, z: u32) -> u32 {
    (x & y) | (!x & z)
}

fn g(x: u32, y: u32, z: u32) -> u32 {
    (x & z) | (y & !z)
}

fn h(x: u32, y: u32, z: u32) -> u32 {
    x ^ y ^ z
}

fn i(x: u32, y: u32, z: u32) -> u32 {
    y ^ (x | !z)
}

/// The words after the sixteen steps of a round, which has its own function and its own order of
/// the block's words.
#[inline(always)]
fn after_round(
    round: usize,
    [mut a, mut b, mut c, mut d]: [u32; 4],
    function: impl Fn(u32, u32, u32) -> u32,
    word: impl Fn(usize) -> u32,
) -> [u32; 4] {
    let addends = &*ADDENDS;
    for step in 0..16 {
        let sum = a
            .wrapping_add(function(b, c, d))
            .wrapping_add(word(step))
            .wrapping_add(addends[16 * round + step]);
        let turned = sum.rotate_left(SHIFTS[round][step % 4]);
        (a, b, c, d) = (d, b.wrapping_add(turned), b, c);
    }
    [a, b, c, d]
}
