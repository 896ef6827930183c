//! Repair of archive indexes, by what their footer says now.

use second::index::{FOOTER, PAGE, Settings};

use super::{LONGEST, digest};
use crate::random::Random;

/// How many bytes of an MD5 are stored.
const HASH: usize = 8;

/// How many bytes the hashed fields of a footer have, from the version to the entry count.
const FIELDS: usize = 12;

/// Repairs most of: the footer where damage to the whole left another than this, the length, the
/// stored last keys, the page hashes and the footer hash.
pub fn index(file: &mut Vec<u8>, footer: &[u8; FOOTER], random: &mut Random) {
    if random.one_in(8) {
        return;
    }
    if said(file).is_none() && random.one_in(2) {
        file.extend(footer);
    }
    if let Some((settings, entries)) = said(file) {
        let length = settings.file_len(entries);
        if length < LONGEST && !random.one_in(4) {
            repair_length(file, length);
        }
        if file.len() == length && !random.one_in(10) {
            let last_keys = !random.one_in(3);
            repair_pages(file, settings, entries, last_keys);
        }
    }
    if !random.one_in(10) {
        repair_footer(file);
    }
}

/// The settings and the entry count of the footer, whatever they are.
fn said(file: &[u8]) -> Option<(Settings, usize)> {
    let footer = file.last_chunk::<FOOTER>()?;
    let settings = Settings {
        version: footer[8].into(),
        offset_width: footer[12].into(),
        key_length: footer[14].into(),
    };
    let [.., n0, n1, n2, n3, _, _, _, _, _, _, _, _] = *footer;
    let entries = u32::from_le_bytes([n0, n1, n2, n3]) as usize;
    let allowed = matches!(settings.offset_width, 4..=6) && matches!(settings.key_length, 1..=16);
    allowed.then_some((settings, entries))
}

/// Cuts or fills up what stands before the footer.
fn repair_length(file: &mut Vec<u8>, length: usize) {
    let footer = file.split_off(file.len() - FOOTER);
    file.resize(length - FOOTER, 0);
    file.extend(footer);
}

/// The hash of each page, and where it is wanted the last key.
fn repair_pages(file: &mut [u8], settings: Settings, entries: usize, last_keys: bool) {
    let pages = settings.pages(entries);
    let full = settings.entries_per_page();
    let (bytes, table) = file.split_at_mut(pages * PAGE);
    let (keys, hashes) = table.split_at_mut(pages * settings.key_len());
    for (number, page) in bytes.chunks_exact(PAGE).enumerate() {
        hashes[number * HASH..][..HASH].copy_from_slice(&digest(page)[..HASH]);
        if last_keys {
            let last = (entries - number * full).min(full) - 1;
            let key = &page[last * settings.entry_len()..][..settings.key_len()];
            keys[number * settings.key_len()..][..key.len()].copy_from_slice(key);
        }
    }
}

/// The footer hash, over the fields and zeros in place of itself.
fn repair_footer(file: &mut [u8]) {
    if let Some(start) = file.len().checked_sub(FOOTER) {
        let (fields, hash) = file[start + HASH..].split_at_mut(FIELDS);
        let mut hashed = [0; FOOTER - HASH];
        hashed[..FIELDS].copy_from_slice(fields);
        hash.copy_from_slice(&digest(&hashed)[..HASH]);
    }
}
