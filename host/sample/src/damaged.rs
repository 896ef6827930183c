//! Damaged indexes.

use second::index::FOOTER;

/// Where the footer has the number of entries.
const ENTRIES: usize = 16;

/// An index with each damage: the damage's name, and the bytes.
pub fn damaged(index: &[u8]) -> [(&'static str, Vec<u8>); 3] {
    let footer = index.len() - FOOTER;
    [
        ("cut", index[..index.len() / 2].to_vec()),
        ("footer", with_another(index, footer + ENTRIES)),
        ("page", with_another(index, 0)),
    ]
}

/// The bytes with another one at this place.
fn with_another(bytes: &[u8], at: usize) -> Vec<u8> {
    let mut bytes = bytes.to_vec();
    bytes[at] ^= 0xff;
    bytes
}
