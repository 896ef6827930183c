//! A list: writing its index, and making one entry of it.

use second::index::Settings;

use super::Compared;
use crate::compare::{Comparison, Output};
use crate::export::{Given, INDEX_WRITE, INDEX_WRITTEN_LENGTH, LIST_PUT};
use forge::build::List;
use forge::damage::{damage, room};
use forge::random::Random;

/// A list with its settings, or with others.
pub fn compare_written(random: &mut Random, comparison: &mut Comparison) -> Compared {
    let mut list = List::new(random);
    let mut bytes = std::mem::take(&mut list.bytes);
    damage(&mut bytes, random, |random| list.place(random));
    let length = list.settings.file_len(list.entries);
    let given = Given::new([&bytes], settings(random, list.settings));
    comparison.call(&INDEX_WRITTEN_LENGTH, &given, Output::None)?;
    let length = room(length, random);
    comparison.call(&INDEX_WRITE, &given, Output::Bytes(length))?;
    Ok(())
}

/// An entry, with a key and numbers about what its settings take.
pub fn compare_entry(random: &mut Random, comparison: &mut Comparison) -> Compared {
    let good = Settings {
        version: random.within(0..=1) as u32,
        offset_width: random.within(4..=6) as u32,
        key_length: random.within(1..=16) as u32,
    };
    let length = match random.within(0..=5) {
        0 => random.within(0..=18),
        _ => good.key_len(),
    };
    let key = random.bytes(length);
    let (archive, offset) = match (good.offset_width, random.within(0..=4)) {
        (_, 0) => (random.number(32), random.number(64)),
        (6, _) => (random.number(16), random.number(32)),
        (width, _) => (0, random.number(8 * width)),
    };
    let [version, offset_width, key_length] = settings(random, good);
    let size = random.number(32);
    let numbers = [version, offset_width, key_length, size, archive, offset];
    let given = Given::new([&key], numbers);
    let length = room(good.entry_len(), random);
    comparison.call(&LIST_PUT, &given, Output::Bytes(length))?;
    Ok(())
}

/// These settings, or rarely one of them beside its bounds, the same in its lowest bits, or any.
fn settings(random: &mut Random, settings: Settings) -> [u64; 3] {
    let mut numbers = [settings.version, settings.offset_width, settings.key_length];
    if random.one_in(10) {
        let wrong = random.within(0..=2);
        numbers[wrong] = match random.within(0..=2) {
            0 => random.pick(&[0, 1, 2, 3, 4, 6, 7, 16, 17, 255]),
            1 => numbers[wrong] + random.pick(&[1 << 8, 1 << 16, 1 << 31]),
            _ => random.word() as u32,
        };
    }
    numbers.map(u64::from)
}
