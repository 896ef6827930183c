//! Memory that is lent to a call, between guards that show a byte written outside of it.

use forge::random::Random;

/// The answer of a call.
pub type Words = [u64; 8];

/// How many bytes of guard stand on each side of an output.
const GUARD: usize = 64;

/// What the start of an input or an output is a multiple of, before it is moved.
pub const ALIGNMENT: usize = 8;

/// The longest output that is lent.
pub const LONGEST: usize = 1 << 20;

/// What a call may write to.
#[derive(Clone, Copy, Debug)]
pub struct Lent {
    /// The first byte of the output.
    pub output: *mut u8,
    /// How many bytes the output has.
    pub length: usize,
    /// The answer.
    pub answer: *mut Words,
}

/// An output and an answer, each between guards.
#[derive(Debug)]
pub struct Memory {
    bytes: Vec<u8>,
    start: usize,
    length: usize,
    words: [Words; 3],
    before: Before,
}

/// What the memory held before the call.
#[derive(Debug)]
struct Before {
    /// A pattern as long as the longest output, its guards and moves.
    pattern: Vec<u8>,
    /// What the output holds in place of the pattern.
    output: Option<Vec<u8>>,
    words: [Words; 3],
}

impl Memory {
    /// Memory for outputs up to the longest.
    pub fn new() -> Self {
        let mut random = Random::of_case(0, 0);
        let length = LONGEST + 2 * GUARD + 2 * ALIGNMENT;
        Self {
            bytes: vec![0; length],
            start: GUARD,
            length: 0,
            words: [[0; 8]; 3],
            before: Before {
                pattern: random.bytes(length),
                output: None,
                words: std::array::from_fn(|_| std::array::from_fn(|_| random.word())),
            },
        }
    }

    /// Lends an output of this length, which holds this or the pattern. It starts `moved` bytes
    /// after a multiple of eight.
    pub fn lend(&mut self, length: usize, moved: usize, holds: Option<&[u8]>) -> Lent {
        assert!(length <= LONGEST && moved < ALIGNMENT);
        let aligned = GUARD + self.bytes[GUARD..].as_ptr().align_offset(ALIGNMENT);
        self.start = aligned + moved;
        self.length = length;
        let end = self.start + length + GUARD;
        self.bytes[..end].copy_from_slice(&self.before.pattern[..end]);
        if let Some(holds) = holds {
            self.bytes[self.start..][..length].copy_from_slice(holds);
        }
        self.before.output = holds.map(<[u8]>::to_vec);
        self.words = self.before.words;
        Lent {
            output: self.bytes[..end].as_mut_ptr().wrapping_add(self.start),
            length,
            answer: self.words.as_mut_ptr().wrapping_add(1),
        }
    }

    /// The output after the call.
    pub fn output(&self) -> &[u8] {
        &self.bytes[self.start..][..self.length]
    }

    /// The output, to be written.
    pub fn output_mut(&mut self) -> &mut [u8] {
        &mut self.bytes[self.start..][..self.length]
    }

    /// The answer after the call.
    pub fn answer(&self) -> Words {
        self.words[1]
    }

    /// Whether the output holds what it held before the call.
    pub fn output_kept(&self) -> bool {
        let pattern = &self.before.pattern[self.start..][..self.length];
        self.output() == self.before.output.as_deref().unwrap_or(pattern)
    }

    /// Whether both guards of the output and of the answer hold what they held before the call.
    pub fn guards_kept(&self) -> bool {
        let end = self.start + self.length;
        let kept = |from: usize, to: usize| self.bytes[from..to] == self.before.pattern[from..to];
        kept(0, self.start)
            && kept(end, end + GUARD)
            && self.words[0] == self.before.words[0]
            && self.words[2] == self.before.words[2]
    }
}

impl Default for Memory {
    fn default() -> Self {
        Self::new()
    }
}
