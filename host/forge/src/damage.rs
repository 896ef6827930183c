//! Damage to files: to a field or a key, or to the whole.

use std::ops::Range;

use crate::random::Random;

/// How often a file is damaged.
const TIMES: [usize; 8] = [0, 1, 1, 1, 1, 2, 2, 3];

/// A field or a key in a file.
#[derive(Clone, Copy, Debug)]
pub struct Place {
    /// Its first byte.
    pub at: usize,
    /// How many bytes it has.
    pub length: usize,
    /// How far the next of its kind is.
    pub step: usize,
}

impl Place {
    /// A field that stands alone.
    pub fn alone(at: usize, length: usize) -> Self {
        Self {
            at,
            length,
            step: length,
        }
    }

    /// Its bytes, and those of the next of its kind; none where the file ends before.
    fn with_next(self, file: &[u8]) -> Option<(Range<usize>, Range<usize>)> {
        let part = |at: usize| at..at + self.length;
        let (this, next) = (part(self.at), part(self.at + self.step));
        (this.end <= next.start && next.end <= file.len()).then_some((this, next))
    }
}

/// Damages a file, mostly at one of the places that its format names.
pub fn damage(file: &mut Vec<u8>, random: &mut Random, place: impl Fn(&mut Random) -> Place) {
    for _ in 0..random.pick(&TIMES) {
        if random.one_in(6) {
            damage_whole(file, random);
        } else {
            let place = place(random);
            damage_place(file, place, random);
        }
    }
}

/// Damages what stands at a place; nothing where the file ends before it.
fn damage_place(file: &mut [u8], place: Place, random: &mut Random) {
    if random.one_in(4)
        && let Some((this, next)) = place.with_next(file)
    {
        match random.within(0..=2) {
            0 => file.copy_within(this, next.start),
            1 => file.copy_within(next, this.start),
            _ => {
                let (low, high) = file.split_at_mut(next.start);
                low[this].swap_with_slice(&mut high[..place.length]);
            }
        }
    } else if let Some(part) = file.get_mut(place.at..place.at + place.length) {
        damage_part(part, random);
    }
}

/// Damages these bytes as those of one number or key.
fn damage_part(part: &mut [u8], random: &mut Random) {
    let Some(last) = part.len().checked_sub(1) else {
        return;
    };
    let byte = random.within(0..=last);
    match random.within(0..=8) {
        0 => part[byte] ^= 1 << random.within(0..=7),
        1 => part[byte] = random.word() as u8,
        2 => part.fill(0),
        3 => part.fill(0xff),
        4 => random.fill(part),
        5 => add_one(part.iter_mut().rev()),
        6 => subtract_one(part.iter_mut().rev()),
        7 => add_one(part.iter_mut()),
        _ => put_number(part, random),
    }
}

/// One more, with the lowest byte first.
fn add_one<'a>(bytes: impl Iterator<Item = &'a mut u8>) {
    for byte in bytes {
        *byte = byte.wrapping_add(1);
        if *byte != 0 {
            break;
        }
    }
}

/// One less, with the lowest byte first.
fn subtract_one<'a>(bytes: impl Iterator<Item = &'a mut u8>) {
    for byte in bytes {
        *byte = byte.wrapping_sub(1);
        if *byte != u8::MAX {
            break;
        }
    }
}

/// A number at a bound, in one of the two orders of bytes.
fn put_number(part: &mut [u8], random: &mut Random) {
    let length = part.len().min(8);
    let number = random.number(8 * length as u32);
    if random.one_in(2) {
        part[..length].copy_from_slice(&number.to_le_bytes()[..length]);
    } else {
        part[..length].copy_from_slice(&number.to_be_bytes()[8 - length..]);
    }
}

/// Damages the whole: parts cut, joined, doubled or exchanged.
pub fn damage_whole(file: &mut Vec<u8>, random: &mut Random) {
    let length = file.len();
    let start = random.within(0..=length);
    let end = random.within(start..=length);
    match random.within(0..=8) {
        0 => file.truncate(start),
        1 => file.truncate(length.saturating_sub(1)),
        2 => file.truncate(random.within(0..=40)),
        3 => drop(file.drain(..start)),
        4 => drop(file.drain(start..end)),
        5 => file.extend_from_within(start..end.min(start + 100)),
        6 => drop(file.splice(start..start, [0, 0, 0, 1])),
        7 => file.push(random.word() as u8),
        _ => file[start..end].rotate_left((end - start) / 2),
    }
}

/// How long an output may be where this number of bytes is to be written: as long, too short,
/// longer, or any below.
pub fn room(length: usize, random: &mut Random) -> usize {
    match random.within(0..=5) {
        0 => length.saturating_sub(1),
        1 => random.within(0..=length),
        2 => length + random.within(1..=100),
        _ => length,
    }
}
