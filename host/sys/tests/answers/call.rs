//! Calls over slices. An answer is lent full of ones, so that a word that is not written shows.

/// The result of a call, and the words of its answer.
pub type Answer = (u32, [u64; 8]);

/// The answer that a call leaves.
pub fn answer(call: impl FnOnce(&mut [u64; 8]) -> u32) -> Answer {
    let mut words = [u64::MAX; 8];
    (call(&mut words), words)
}

/// The answer of one word.
pub fn answered(word: usize) -> Answer {
    (0, [word as u64, 0, 0, 0, 0, 0, 0, 0])
}

/// The answer where nothing is found and no word is named.
pub const ABSENT: Answer = (1, [0; 8]);

/// A refusal outside a chain.
pub fn refused(number: u64, place: u64) -> Answer {
    (2, [number, place, 0, 0, 0, 0, 0, 0])
}

/// An export that takes one input.
pub type OneInput = unsafe extern "C" fn(*const u8, usize, &mut [u64; 8]) -> u32;

pub fn one_input(export: OneInput, input: &[u8]) -> Answer {
    // SAFETY: pointer and length are those of one slice.
    answer(|answer| unsafe { export(input.as_ptr(), input.len(), answer) })
}

/// An export that takes one input and a number.
pub type Numbered<N> = unsafe extern "C" fn(*const u8, usize, N, &mut [u64; 8]) -> u32;

pub fn numbered<N>(export: Numbered<N>, input: &[u8], number: N) -> Answer {
    // SAFETY: pointer and length are those of one slice.
    answer(|answer| unsafe { export(input.as_ptr(), input.len(), number, answer) })
}

/// An export that takes two inputs.
pub type TwoInputs = unsafe extern "C" fn(*const u8, usize, *const u8, usize, &mut [u64; 8]) -> u32;

pub fn two_inputs(export: TwoInputs, file: &[u8], key: &[u8]) -> Answer {
    let (start, length) = (file.as_ptr(), file.len());
    // SAFETY: each pointer and length are those of one slice.
    answer(|answer| unsafe { export(start, length, key.as_ptr(), key.len(), answer) })
}

/// An export that takes one input and fills an output.
pub type Filling = unsafe extern "C" fn(*const u8, usize, *mut u8, usize, &mut [u64; 8]) -> u32;

pub fn filling(export: Filling, input: &[u8], output: &mut [u8]) -> Answer {
    let (start, length) = (input.as_ptr(), input.len());
    // SAFETY: each pointer and length are those of one slice, and the slices do not overlap.
    answer(|answer| unsafe { export(start, length, output.as_mut_ptr(), output.len(), answer) })
}
