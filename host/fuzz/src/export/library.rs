//! The shapes of the library's functions, and a call of each.

use super::Given;
use crate::lent::{Lent, Words};

/// A function of the library by its shape: what it takes before the answer.
#[derive(Clone, Copy, Debug)]
pub enum Function {
    /// A file.
    File(unsafe extern "C" fn(*const u8, usize, &mut Words) -> u32),
    /// A file and a number of 32 bits.
    FileAndU32(unsafe extern "C" fn(*const u8, usize, u32, &mut Words) -> u32),
    /// A file and a number of 64 bits.
    FileAndU64(unsafe extern "C" fn(*const u8, usize, u64, &mut Words) -> u32),
    /// A file and two numbers of 64 bits.
    FileAndTwoU64(unsafe extern "C" fn(*const u8, usize, u64, u64, &mut Words) -> u32),
    /// A file and a key.
    FileAndKey(unsafe extern "C" fn(*const u8, usize, *const u8, usize, &mut Words) -> u32),
    /// A file and an output.
    FileToOutput(unsafe extern "C" fn(*const u8, usize, *mut u8, usize, &mut Words) -> u32),
    /// A file and an output of 16 bytes.
    FileTo16(unsafe extern "C" fn(*const u8, usize, &mut [u8; 16], &mut Words) -> u32),
    /// The shape of one function alone.
    Other(unsafe fn(&Given, Lent) -> u32),
}

impl Function {
    /// Calls it.
    ///
    /// # Safety
    ///
    /// What is lent may be written for the length that it names, and the given numbers and lengths
    /// are those of the function's inputs.
    pub unsafe fn call(self, given: &Given, lent: Lent) -> u32 {
        let (at, length) = given.lent(0);
        let (key, key_length) = given.lent(1);
        let [number, second, ..] = given.numbers;
        // SAFETY: pointers and lengths are those of slices, or NULL and 0; the rest is as the caller
        // says.
        unsafe {
            let answer = &mut *lent.answer;
            match self {
                Self::File(call) => call(at, length, answer),
                Self::FileAndU32(call) => call(at, length, number as u32, answer),
                Self::FileAndU64(call) => call(at, length, number, answer),
                Self::FileAndTwoU64(call) => call(at, length, number, second, answer),
                Self::FileAndKey(call) => call(at, length, key, key_length, answer),
                Self::FileToOutput(call) => call(at, length, lent.output, lent.length, answer),
                Self::FileTo16(call) => call(at, length, bytes_16(lent), answer),
                Self::Other(call) => call(given, lent),
            }
        }
    }
}

/// The output as an array of 16 bytes.
///
/// # Safety
///
/// The output may be written, and nobody else does.
pub unsafe fn bytes_16<'a>(lent: Lent) -> &'a mut [u8; 16] {
    assert_eq!(lent.length, 16);
    // SAFETY: there are 16 bytes, and the caller says that they may be written.
    unsafe { &mut *lent.output.cast() }
}

/// An MD5 state in an output: words, pending bytes and count, one after the other.
#[repr(C)]
#[derive(Clone, Copy, Debug)]
pub struct State {
    /// A, B, C, D.
    pub words: [u32; 4],
    /// The bytes after the whole blocks.
    pub pending: [u8; 64],
    /// All bytes so far.
    pub count: u64,
}

impl State {
    /// How many bytes a state has.
    pub const LENGTH: usize = size_of::<Self>();

    /// The state of these bytes.
    pub fn of(bytes: &[u8]) -> Self {
        let (words, rest) = bytes.split_at(16);
        let (pending, count) = rest.split_at(64);
        let mut state = Self {
            words: [0; 4],
            pending: [0; 64],
            count: u64::from_ne_bytes(count.try_into().expect("a state ends in the count")),
        };
        for (word, bytes) in state.words.iter_mut().zip(words.as_chunks().0) {
            *word = u32::from_ne_bytes(*bytes);
        }
        state.pending.copy_from_slice(pending);
        state
    }

    /// Its bytes.
    pub fn bytes(&self) -> Vec<u8> {
        let mut bytes: Vec<u8> = self.words.into_iter().flat_map(u32::to_ne_bytes).collect();
        bytes.extend(self.pending);
        bytes.extend(self.count.to_ne_bytes());
        bytes
    }

    /// The state in an output.
    ///
    /// # Safety
    ///
    /// As for `bytes_16`; the output starts at a multiple of eight.
    pub unsafe fn lent<'a>(lent: Lent) -> &'a mut Self {
        assert_eq!(lent.length, Self::LENGTH);
        let state: *mut Self = lent.output.cast();
        assert!(state.is_aligned());
        // SAFETY: there are as many bytes, and the caller says that they may be written.
        unsafe { &mut *state }
    }
}
