//! The full check, and the list.

use super::{Index, first_8};
use crate::refusal::{self, Refusal};

/// The full check; refuses with 1 to 9.
pub fn check(file: &[u8]) -> Result<Index<'_>, Refusal> {
    let index = Index::open(file)?;
    check_pages(&index)?;
    Ok(index)
}

/// Writes the list of an index into the output, and gives its length; refuses as the full check
/// does, then with 13.
pub fn list(file: &[u8], output: &mut [u8]) -> Result<usize, Refusal> {
    let index = check(file)?;
    let length = index.list_len();
    let mut rest = output.get_mut(..length).ok_or(refusal::OUTPUT_TOO_SHORT)?;
    for page in 0..index.pages() {
        let (entries, _) = index.split_page(page);
        let (filled, after) = rest.split_at_mut(entries.len());
        filled.copy_from_slice(entries);
        rest = after;
    }
    Ok(length)
}

/// Page by page 6, 7, 8 and 9.
fn check_pages(index: &Index) -> Result<(), Refusal> {
    let settings = index.settings;
    let mut before: Option<&[u8]> = None;
    for (page, bytes) in index.pages.iter().enumerate() {
        if first_8(bytes) != index.page_hashes[page] {
            return Err(refusal::page_hash(page));
        }
        let (entries, padding) = index.split_page(page);
        if padding.iter().any(|&byte| byte != 0) {
            return Err(refusal::padding(page));
        }
        for (slot, entry) in entries.chunks_exact(settings.entry_len()).enumerate() {
            let key = &entry[..settings.key_len()];
            if before.is_some_and(|before| key <= before) {
                let entry = page * settings.entries_per_page() + slot;
                return Err(refusal::order(entry));
            }
            before = Some(key);
        }
        if before != Some(index.last_key(page)) {
            return Err(refusal::last_key(page));
        }
    }
    Ok(())
}
