//! Keys that are sought.

use std::hint::black_box;

use fuzz::export::{ABSENT, ANSWERED, Given};

use crate::measure::{Contender, mixed};

/// How many keys are sought, one after the other and then from the first again.
pub const COUNT: u64 = 1 << 16;

pub type Key = [u8; 16];

/// The key of an entry, by its number and the number of all entries.
pub type KeyOfNumber = fn(usize, usize) -> Key;

/// What is sought.
#[derive(Clone, Copy)]
pub enum Sought {
    Found,
    Absent,
}

impl Sought {
    /// Random keys of `entries` entries, of which this gives the key of each; or keys that none of
    /// them has.
    pub fn keys(self, entries: usize, key: KeyOfNumber) -> Vec<Key> {
        self.all_keys(entries, key).take(COUNT as usize).collect()
    }

    /// The same without end.
    pub fn all_keys(self, entries: usize, key: KeyOfNumber) -> impl Iterator<Item = Key> {
        (0..).map(move |number| match self {
            Self::Found => key(mixed(number) as usize % entries, entries),
            Self::Absent => both(mixed(number), mixed(!number)),
        })
    }

    /// The result of a lookup.
    pub fn result(self) -> u32 {
        match self {
            Self::Found => ANSWERED,
            Self::Absent => ABSENT,
        }
    }

    /// What a line says of it.
    pub fn kind(self) -> &'static str {
        match self {
            Self::Found => ", found",
            Self::Absent => ", absent",
        }
    }
}

/// The key of these halves.
pub fn both(high: u64, low: u64) -> Key {
    (u128::from(high) << 64 | u128::from(low)).to_be_bytes()
}

/// What the call with a number is given: the file and one of the keys.
pub fn by_key<'a>(file: &'a [u8], keys: &'a [Key]) -> Box<dyn Fn(u64) -> Given<'a> + 'a> {
    Box::new(move |number| Given::new([file, &keys[(number % COUNT) as usize]], []))
}

/// Looks one key up after the other, or compares one pair of them after the other.
pub fn each<'a, T, A>(keys: &'a [T], call: impl Fn(&T) -> A + 'a) -> Contender<'a> {
    let mut keys = keys.iter().cycle();
    Box::new(move |times| {
        for key in keys.by_ref().take(times as usize) {
            black_box(call(black_box(key)));
        }
    })
}
