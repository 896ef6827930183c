//! Name hashes of paths, by Bob Jenkins' hashlittle2 (lookup3.c, May 2006).

use crate::refusal::{self, Refusal};

/// The most bytes that a path has.
const LONGEST_PATH: usize = 1024;

/// How many bytes are taken in at once: a word for each of a, b and c.
const BLOCK: usize = 12;

/// The amounts of `mix` and of `final`, step by step.
const MIX: [u32; 6] = [4, 6, 8, 16, 19, 4];
const FINAL: [u32; 7] = [14, 11, 25, 16, 4, 14, 24];

/// The name hash of a path; refuses with 110.
pub fn name_hash(path: &[u8]) -> Result<u64, Refusal> {
    if path.len() > LONGEST_PATH {
        return Err(refusal::PATH_LENGTH);
    }
    let name: Vec<u8> = path.iter().map(|&byte| folded(byte)).collect();
    let (c, b) = hashlittle2(&name, 0, 0);
    Ok(u64::from(c) << 32 | u64::from(b))
}

/// A byte of a path as it is hashed.
fn folded(byte: u8) -> u8 {
    match byte {
        b'/' => b'\\',
        _ => byte.to_ascii_uppercase(),
    }
}

/// Both results, c and b, for the starting values of c and b.
pub fn hashlittle2(bytes: &[u8], start_c: u32, start_b: u32) -> (u32, u32) {
    // As in lookup3.c, of the length only its lowest 32 bits count.
    let start = 0xdead_beef_u32
        .wrapping_add(bytes.len() as u32)
        .wrapping_add(start_c);
    let start = [start, start, start.wrapping_add(start_b)];
    if bytes.is_empty() {
        let [_, b, c] = start;
        return (c, b);
    }
    let last = (bytes.len() - 1) / BLOCK * BLOCK;
    let before = bytes[..last].chunks(BLOCK).fold(start, |state, block| {
        MIX.into_iter().fold(added(state, block), mixed)
    });
    let end = added(before, &bytes[last..]);
    let [b, c, _] = FINAL.into_iter().fold(end, finished);
    (c, b)
}

/// The words with those of a block added; bytes that it lacks are zeros.
fn added(words: [u32; 3], block: &[u8]) -> [u32; 3] {
    let mut number = [0; 16];
    number[..block.len()].copy_from_slice(block);
    let number = u128::from_le_bytes(number);
    let word = |at: u32| (number >> (32 * at)) as u32;
    let [a, b, c] = words;
    [
        a.wrapping_add(word(0)),
        b.wrapping_add(word(1)),
        c.wrapping_add(word(2)),
    ]
}

/// A step of `mix`. Each step does to the next of the words what the one before did, so that the
/// words move on by one; after six they stand as before.
fn mixed([x, y, z]: [u32; 3], amount: u32) -> [u32; 3] {
    let x = x.wrapping_sub(z) ^ z.rotate_left(amount);
    [y, z.wrapping_add(y), x]
}

/// A step of `final`, likewise; after the seventh b, c and a stand in this order.
fn finished([x, y, z]: [u32; 3], amount: u32) -> [u32; 3] {
    let z = (z ^ y).wrapping_sub(y.rotate_left(amount));
    [y, z, x]
}
