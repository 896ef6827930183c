//! Random numbers: those of a seed are always the same.

use std::env;
use std::ops::RangeInclusive;

/// splitmix64.
#[derive(Clone, Debug)]
pub struct Random {
    state: u64,
}

impl Random {
    /// The numbers of one case.
    pub fn of_case(seed: u64, case: u64) -> Self {
        let mut of_seed = Self { state: seed };
        let mut of_case = Self { state: case };
        Self {
            state: of_seed.word() ^ of_case.word().rotate_left(32),
        }
    }

    /// The numbers of a test, from the seed in DWARNIZZA_TEST_SEED or a fixed one, which is
    /// printed.
    pub fn of_test() -> Self {
        let seed = match env::var("DWARNIZZA_TEST_SEED") {
            Ok(text) => text.parse().expect("DWARNIZZA_TEST_SEED is a number"),
            Err(_) => 1321,
        };
        println!("DWARNIZZA_TEST_SEED={seed}");
        Self { state: seed }
    }

    /// Any 64 bits.
    pub fn word(&mut self) -> u64 {
        self.state = self.state.wrapping_add(0x9e37_79b9_7f4a_7c15);
        let mut z = self.state;
        z = (z ^ (z >> 30)).wrapping_mul(0xbf58_476d_1ce4_e5b9);
        z = (z ^ (z >> 27)).wrapping_mul(0x94d0_49bb_1331_11eb);
        z ^ (z >> 31)
    }

    /// A number of this range.
    pub fn within(&mut self, range: RangeInclusive<usize>) -> usize {
        let (first, last) = range.into_inner();
        first + (self.word() % (last - first + 1) as u64) as usize
    }

    /// A number from 0 to `most`.
    pub fn up_to(&mut self, most: usize) -> usize {
        self.within(0..=most)
    }

    /// True once in this number of times.
    pub fn one_in(&mut self, times: u64) -> bool {
        self.word().is_multiple_of(times)
    }

    /// One of these.
    pub fn pick<T: Copy>(&mut self, choices: &[T]) -> T {
        choices[self.within(0..=choices.len() - 1)]
    }

    /// Fills these bytes.
    pub fn fill(&mut self, bytes: &mut [u8]) {
        for part in bytes.chunks_mut(8) {
            part.copy_from_slice(&self.word().to_le_bytes()[..part.len()]);
        }
    }

    /// Bytes of this length.
    pub fn bytes(&mut self, length: usize) -> Vec<u8> {
        let mut bytes = vec![0; length];
        self.fill(&mut bytes);
        bytes
    }

    /// An array of bytes.
    pub fn array<const N: usize>(&mut self) -> [u8; N] {
        let mut bytes = [0; N];
        self.fill(&mut bytes);
        bytes
    }

    /// A number at or near a bound of its field, or any.
    pub fn number(&mut self, bits: u32) -> u64 {
        let most = u64::MAX >> (64 - bits);
        let number = match self.within(0..=7) {
            0 => 0,
            1 => most,
            2 => most / 2,
            3 => most / 2 + 1,
            4 => 1 << self.within(0..=bits as usize - 1),
            5 => self.word() % 300,
            _ => self.word(),
        };
        let near = self.pick(&[0, 0, 1, u64::MAX]);
        number.wrapping_add(near) & most
    }
}
