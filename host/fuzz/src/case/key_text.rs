//! Key text.

use super::Compared;
use crate::compare::{Comparison, Output};
use crate::export::{Given, KEY_TEXT};
use forge::damage::damage_whole;
use forge::random::Random;

/// The hex digits, in both cases.
const DIGITS: &[u8] = b"0123456789abcdefABCDEF";

/// Characters beside the hex digits.
const BESIDE: &[u8] = b"/:@G`g x\0\xff";

pub fn compare(random: &mut Random, comparison: &mut Comparison) -> Compared {
    let key_length = match random.within(0..=9) {
        0 => random.pick(&[0, 17, 32, 255, 256, 272, 65536 + 16, u32::MAX as usize]),
        _ => random.within(1..=16),
    };
    let digits = 2 * key_length.min(20);
    let mut text: Vec<u8> = (0..digits).map(|_| random.pick(DIGITS)).collect();
    match random.within(0..=5) {
        0 => damage_whole(&mut text, random),
        1 | 2 if digits > 0 => text[random.within(0..=digits - 1)] = random.pick(BESIDE),
        3 if digits > 0 => text[random.within(0..=digits - 1)] = random.word() as u8,
        _ => {}
    }
    let given = Given::new([&text], [key_length as u64]);
    comparison.call(&KEY_TEXT, &given, Output::Bytes(16))?;
    Ok(())
}
