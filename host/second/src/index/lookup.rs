//! The lookup by the halving rule, the bound of its comparisons, and the plain reading.

use super::{Index, SIZE_WIDTH};
use crate::number::big_endian;
use crate::refusal::{self, Refusal};

/// Where a key was found, and what its entry says.
#[derive(Clone, Copy, Debug, PartialEq, Eq)]
pub struct Found {
    /// The page, from 0.
    pub page: usize,
    /// The slot in the page, from 0.
    pub slot: usize,
    /// The encoded size.
    pub size: u32,
    /// The location's W bytes, as one number.
    pub location: u64,
}

/// The answer of a lookup.
#[derive(Clone, Copy, Debug, PartialEq, Eq)]
pub struct Lookup {
    /// None where the key is absent.
    pub found: Option<Found>,
    /// How many comparisons of stored keys were made.
    pub compared: u32,
}

/// Looks a key up by the halving rule; refuses as the opening checks do, then with 10.
pub fn lookup(file: &[u8], key: &[u8]) -> Result<Lookup, Refusal> {
    let index = Index::open(file)?;
    if key.len() != index.settings.key_len() {
        return Err(refusal::SOUGHT_KEY_LENGTH);
    }
    let mut compared = 0;
    let found = index.find(key, &mut compared);
    Ok(Lookup { found, compared })
}

/// The most comparisons that a lookup makes; refuses as the opening checks do.
pub fn bound(file: &[u8]) -> Result<u32, Refusal> {
    let index = Index::open(file)?;
    let full = index.settings.entries_per_page();
    Ok(binary_digits(index.pages()) + binary_digits(full) + 1)
}

impl Index<'_> {
    /// The plain reading: goes through all entries to the first whose key is the sought one.
    pub fn plain_reading(&self, key: &[u8]) -> Option<Found> {
        (0..self.pages()).find_map(|page| {
            let (entries, _) = self.split_page(page);
            let slot = entries
                .chunks_exact(self.settings.entry_len())
                .position(|entry| &entry[..self.settings.key_len()] == key)?;
            Some(self.found(page, slot))
        })
    }

    /// The lookup by the halving rule, first over the last keys, then over the page's entries.
    fn find(&self, key: &[u8], compared: &mut u32) -> Option<Found> {
        let page = first_not_below(self.pages(), |page| {
            *compared += 1;
            self.last_key(page) < key
        });
        if page == self.pages() {
            return None;
        }
        let (entries, _) = self.split_page(page);
        let length = self.settings.entry_len();
        let stored_key = |slot: usize| &entries[slot * length..][..key.len()];
        let slots = entries.len() / length;
        let slot = first_not_below(slots, |slot| {
            *compared += 1;
            stored_key(slot) < key
        });
        if slot == slots {
            return None;
        }
        *compared += 1;
        (stored_key(slot) == key).then(|| self.found(page, slot))
    }

    /// What the entry at this page and slot says.
    fn found(&self, page: usize, slot: usize) -> Found {
        let (entries, _) = self.split_page(page);
        let length = self.settings.entry_len();
        let entry = &entries[slot * length..][..length];
        let (size, location) = entry[self.settings.key_len()..].split_at(SIZE_WIDTH);
        Found {
            page,
            slot,
            size: big_endian(size) as u32,
            location: big_endian(location),
        }
    }
}

/// The halving rule over this number of keys: the first that is not below, or their number where
/// all are.
fn first_not_below(keys: usize, mut is_below: impl FnMut(usize) -> bool) -> usize {
    let (mut start, mut left) = (0, keys);
    while left > 0 {
        let half = left / 2;
        if is_below(start + half) {
            start += half + 1;
            left -= half + 1;
        } else {
            left = half;
        }
    }
    start
}

/// The binary digits of a number: the least d with the number below 2^d.
fn binary_digits(number: usize) -> u32 {
    let mut digits = 0;
    while number >> digits > 0 {
        digits += 1;
    }
    digits
}
