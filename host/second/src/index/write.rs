//! The writer.

use super::footer::Footer;
use super::{FOOTER, HASH, MOST_ENTRIES, PAGE, Settings, first_8};
use crate::refusal::{self, Refusal};

/// Writes the index of this list with these settings into the output, and gives its length;
/// refuses with 11, 12, 4, 8, 13 in this order.
pub fn write(settings: Settings, list: &[u8], output: &mut [u8]) -> Result<usize, Refusal> {
    let length = written_length(settings, list)?;
    let file = output.get_mut(..length).ok_or(refusal::OUTPUT_TOO_SHORT)?;

    let entries = list.len() / settings.entry_len();
    let (contents, footer) = file.split_at_mut(length - FOOTER);
    let (pages, table) = contents.split_at_mut(settings.pages(entries) * PAGE);
    fill_pages(settings, list, pages);
    fill_table(settings, entries, pages, table);
    let contents_hash = first_8(table);
    footer.copy_from_slice(&Footer { settings, entries }.bytes(contents_hash));
    Ok(length)
}

/// The length of the file that this list gives; refuses with 11, 12, 4, 8 in this order.
pub fn written_length(settings: Settings, list: &[u8]) -> Result<usize, Refusal> {
    if !settings.allowed() {
        return Err(refusal::SETTINGS);
    }
    if !list.len().is_multiple_of(settings.entry_len()) {
        return Err(refusal::LIST_NOT_WHOLE);
    }
    let entries = list.len() / settings.entry_len();
    if entries > MOST_ENTRIES {
        return Err(refusal::TOO_MANY_ENTRIES);
    }
    if let Some(entry) = first_out_of_order(settings, list) {
        return Err(refusal::order(entry));
    }
    Ok(settings.file_len(entries))
}

/// The first entry whose key is not above the one before.
fn first_out_of_order(settings: Settings, list: &[u8]) -> Option<usize> {
    let keys = || {
        list.chunks_exact(settings.entry_len())
            .map(|entry| &entry[..settings.key_len()])
    };
    let later = (1..).zip(keys().skip(1));
    let mut pairs = keys().zip(later);
    pairs.find_map(|(before, (number, key))| (key <= before).then_some(number))
}

/// Lays the entries out on the pages.
fn fill_pages(settings: Settings, list: &[u8], pages: &mut [u8]) {
    let full = settings.entries_per_page() * settings.entry_len();
    for (page, entries) in pages.chunks_exact_mut(PAGE).zip(list.chunks(full)) {
        let (filled, padding) = page.split_at_mut(entries.len());
        filled.copy_from_slice(entries);
        padding.fill(0);
    }
}

/// The last key of each page, then the hash of each page.
fn fill_table(settings: Settings, entries: usize, pages: &[u8], table: &mut [u8]) {
    let full = settings.entries_per_page();
    let (last_keys, page_hashes) = table.split_at_mut(settings.pages(entries) * settings.key_len());
    let last_keys = last_keys.chunks_exact_mut(settings.key_len());
    let page_hashes = page_hashes.chunks_exact_mut(HASH);
    let pages = pages.chunks_exact(PAGE).enumerate();
    for (((page, bytes), last_key), page_hash) in pages.zip(last_keys).zip(page_hashes) {
        let last_slot = (entries - page * full).min(full) - 1;
        last_key.copy_from_slice(&bytes[last_slot * settings.entry_len()..][..settings.key_len()]);
        page_hash.copy_from_slice(&first_8(bytes));
    }
}
