//! One entry: read from a slot of a page, or made for a list.

use super::{Index, SIZE_WIDTH, Settings};
use crate::number::big_endian;
use crate::refusal::{self, Refusal};

/// An entry, and where it stands.
#[derive(Clone, Copy, Debug, PartialEq, Eq)]
pub struct Entry<'a> {
    /// The key, as it stands there.
    pub key: &'a [u8],
    /// The encoded size.
    pub size: u32,
    /// The archive number; 0 where W is not 6.
    pub archive: u32,
    /// The offset.
    pub offset: u64,
    /// The page.
    pub page: usize,
    /// Its place on that page.
    pub slot: usize,
}

/// The entry in this slot of this page; refuses as the opening checks do.
pub fn entry(file: &[u8], page: u64, slot: u64) -> Result<Option<Entry<'_>>, Refusal> {
    let index = Index::open(file)?;
    let (Ok(page), Ok(slot)) = (usize::try_from(page), usize::try_from(slot)) else {
        return Ok(None);
    };
    if page >= index.pages() {
        return Ok(None);
    }
    let (entries, _) = index.split_page(page);
    let bytes = entries.chunks_exact(index.settings.entry_len()).nth(slot);
    Ok(bytes.map(|bytes| read(index.settings, bytes, page, slot)))
}

fn read(settings: Settings, entry: &[u8], page: usize, slot: usize) -> Entry<'_> {
    let (key, rest) = entry.split_at(settings.key_len());
    let (size, location) = rest.split_at(SIZE_WIDTH);
    let (archive, offset) = match settings.offset_width {
        6 => location.split_at(2),
        _ => location.split_at(0),
    };
    Entry {
        key,
        size: big_endian(size) as u32,
        archive: big_endian(archive) as u32,
        offset: big_endian(offset),
        page,
        slot,
    }
}

/// Puts the bytes of an entry of a list at the start of the output, and gives how many they are;
/// refuses with 11, 10, 13 in this order.
pub fn put_entry(
    settings: Settings,
    key: &[u8],
    size: u32,
    archive: u32,
    offset: u64,
    output: &mut [u8],
) -> Result<usize, Refusal> {
    if !settings.allowed() {
        return Err(refusal::SETTINGS);
    }
    let location = location(settings.offset_width, archive, offset).ok_or(refusal::SETTINGS)?;
    if key.len() != settings.key_len() {
        return Err(refusal::SOUGHT_KEY_LENGTH);
    }
    let entry = [key, &size.to_be_bytes(), &location].concat();
    let start = output
        .get_mut(..entry.len())
        .ok_or(refusal::OUTPUT_TOO_SHORT)?;
    start.copy_from_slice(&entry);
    Ok(entry.len())
}

/// The bytes of a location; none where they cannot hold both numbers.
fn location(width: u32, archive: u32, offset: u64) -> Option<Vec<u8>> {
    if width == 6 {
        let archive = u16::try_from(archive).ok()?.to_be_bytes();
        let offset = u32::try_from(offset).ok()?.to_be_bytes();
        return Some([&archive[..], &offset].concat());
    }
    let bytes = offset.to_be_bytes();
    let (high, low) = bytes.split_at(bytes.len() - width as usize);
    (archive == 0 && high.iter().all(|&byte| byte == 0)).then(|| low.to_vec())
}
