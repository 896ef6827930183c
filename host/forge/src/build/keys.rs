//! Keys.

use crate::random::Random;

/// The length of keys: often 16, else any.
pub fn length(random: &mut Random) -> u8 {
    match random.within(0..=2) {
        0 => 16,
        _ => random.within(1..=16) as u8,
    }
}

/// How many keys of this length there are, or a number that is enough here.
pub fn most(key_length: usize) -> usize {
    1 << (8 * key_length).min(16)
}

/// `count` keys that rise, one after the other. They differ in their first bytes, or in their last
/// ones alone.
pub fn rising(random: &mut Random, key_length: usize, count: usize) -> Vec<u8> {
    let counted = key_length.min(8);
    let highest = u64::MAX >> (64 - 8 * counted);
    let widest = highest / (count as u64 + 2);
    let at_end = random.one_in(2);
    let dense = random.one_in(2);
    let first = random.bytes(key_length);
    let mut number = random.word() % (widest + 1) * u64::from(!random.one_in(4));
    let mut keys = Vec::with_capacity(key_length * count);
    for _ in 0..count {
        let bytes = &number.to_be_bytes()[8 - counted..];
        if at_end {
            keys.extend_from_slice(&first[..key_length - counted]);
            keys.extend_from_slice(bytes);
        } else {
            keys.extend_from_slice(bytes);
            keys.extend_from_slice(&random.bytes(key_length - counted));
        }
        number += if dense {
            1
        } else {
            1 + random.word() % widest.max(1)
        };
    }
    keys
}

/// A key to be sought among these: one of them, one beside it, any, or one of another length.
pub fn sought(random: &mut Random, keys: &[u8], key_length: usize) -> Vec<u8> {
    let count = keys.len() / key_length.max(1);
    let mut key = match random.within(0..=9) {
        0 => random.bytes(key_length),
        1 => vec![0; key_length],
        2 => vec![0xff; key_length],
        _ if count == 0 => random.bytes(key_length),
        _ => {
            let number = random.within(0..=count - 1);
            keys[number * key_length..][..key_length].to_vec()
        }
    };
    match random.within(0..=9) {
        0 => drop(key.pop()),
        1 => key.push(0),
        2 | 3 => {
            if let Some(last) = key.last_mut() {
                *last = last.wrapping_add(random.pick(&[1, u8::MAX]));
            }
        }
        _ => {}
    }
    key
}
