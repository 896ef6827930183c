//! An envelope.

use super::Compared;
use crate::compare::{Comparison, Output};
use crate::export::{ENVELOPE_KEY, ENVELOPE_LENGTH, ENVELOPE_OPEN, Given};
use forge::build::Envelope;
use forge::damage::{damage, room};
use forge::random::Random;
use forge::repair;

pub fn compare(random: &mut Random, comparison: &mut Comparison) -> Compared {
    let envelope = Envelope::new(random);
    let mut file = envelope.file.clone();
    damage(&mut file, random, |random| envelope.place(random));
    repair::envelope(&mut file, random);
    comparison.call(&ENVELOPE_KEY, &Given::new([&file], []), Output::Bytes(16))?;
    let key = key(random, &file);
    let given = Given::new([&file, &key], []);
    let said = comparison.call(&ENVELOPE_LENGTH, &given, Output::None)?;
    let length = match said.result {
        0 => room(said.words[0] as usize, random),
        _ => random.within(0..=100),
    };
    comparison.call(&ENVELOPE_OPEN, &given, Output::Bytes(length))?;
    Ok(())
}

/// Mostly the key of the envelope; else one with another bit, or of another length.
fn key(random: &mut Random, file: &[u8]) -> Vec<u8> {
    let key = second::envelope::envelope_key(file);
    let mut key = key.unwrap_or([0; 16]).to_vec();
    match random.within(0..=15) {
        0 => key[random.within(0..=15)] ^= 1 << random.within(0..=7),
        1 => drop(key.pop()),
        2 => key.push(0),
        3 => key.clear(),
        _ => {}
    }
    key
}
