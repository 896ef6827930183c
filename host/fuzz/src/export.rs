//! The exports: how each is called, what the second program says in its place, and which refusals
//! it gives.

mod library;
mod second_program;
mod table;

pub use library::{Function, State};
pub use second_program::{ABSENT, ANSWERED, REFUSED, Said};
pub use table::*;

use std::ops::RangeInclusive;
use std::ptr;

/// An export of the library.
#[derive(Debug)]
pub struct Export {
    /// Its name in the header.
    pub name: &'static str,
    /// The names of its byte inputs, in the order of the header.
    pub inputs: &'static [&'static str],
    /// The names of its numbers.
    pub numbers: &'static [&'static str],
    /// The library's function.
    pub library: Function,
    /// What the second program says and leaves in the output.
    pub second: fn(&Given, &mut [u8]) -> Said,
    /// The refusals that it gives on small inputs.
    pub refusals: &'static [RangeInclusive<u32>],
}

/// What a call is given beside its output.
#[derive(Clone, Copy, Debug)]
pub struct Given<'a> {
    /// The byte inputs; empty where the export has fewer.
    pub bytes: [&'a [u8]; 3],
    /// The numbers; 0 where the export has fewer.
    pub numbers: [u64; 6],
    /// Whether the pointer of an empty input is NULL.
    pub empty_is_null: bool,
}

impl<'a> Given<'a> {
    /// These inputs and numbers.
    pub fn new<const B: usize, const N: usize>(bytes: [&'a [u8]; B], numbers: [u64; N]) -> Self {
        let mut given = Self {
            bytes: [&[]; 3],
            numbers: [0; 6],
            empty_is_null: false,
        };
        given.bytes[..B].copy_from_slice(&bytes);
        given.numbers[..N].copy_from_slice(&numbers);
        given
    }

    /// The pointer and the length of an input.
    pub fn lent(&self, input: usize) -> (*const u8, usize) {
        match self.bytes[input] {
            [] if self.empty_is_null => (ptr::null(), 0),
            bytes => (bytes.as_ptr(), bytes.len()),
        }
    }
}

impl Export {
    /// Whether the export gives this refusal.
    pub fn gives(&self, refusal: u32) -> bool {
        self.refusals
            .iter()
            .any(|numbers| numbers.contains(&refusal))
    }
}
