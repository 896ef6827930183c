//! Good files with the layout that they were made by, and chosen faults in them.

pub mod chain;
pub mod encoding;
pub mod index;
pub mod root;

use crate::random::Random;

/// Makes one byte another.
pub fn flip(random: &mut Random, bytes: &mut [u8]) {
    let place = random.up_to(bytes.len() - 1);
    bytes[place] ^= 1 + random.up_to(254) as u8;
}
