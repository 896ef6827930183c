//! The last 28 bytes of an index.

use std::ops::RangeInclusive;

use super::{FOOTER, HASH, MOST_ENTRIES, SIZE_WIDTH, Settings, first_8};
use crate::refusal::{self, Refusal};

const RESERVED: u8 = 0;
const PAGE_KB: u8 = 4;
const SIZE_WIDTH_FIELD: u8 = SIZE_WIDTH as u8;
const HASH_LENGTH: u8 = HASH as u8;

/// The offset widths of archive indexes.
const ARCHIVE_WIDTHS: RangeInclusive<u8> = 4..=6;

/// That of indexes of loose files and of patches.
const LOOSE_WIDTHS: RangeInclusive<u8> = 0..=0;

/// What a footer says. The contents hash is not judged.
#[derive(Clone, Copy, Debug, PartialEq, Eq)]
pub struct Footer {
    /// Version, W and K.
    pub settings: Settings,
    /// n, of which the footer has 32 bits.
    pub entries: usize,
}

/// What the footer of a file says, whatever the file's length; refuses as the
/// opening checks but that of the length do.
pub fn footer(file: &[u8]) -> Result<Footer, Refusal> {
    let footer = file.last_chunk().ok_or(refusal::INDEX_TOO_SHORT)?;
    let footer = Footer::read(footer, ARCHIVE_WIDTHS)?;
    if footer.entries > MOST_ENTRIES {
        return Err(refusal::TOO_MANY_ENTRIES);
    }
    Ok(footer)
}

/// Whether the footer of a file is that of an index of loose files or of patches. n may be any.
pub fn is_loose(file: &[u8]) -> bool {
    file.last_chunk()
        .is_some_and(|footer| Footer::read(footer, LOOSE_WIDTHS).is_ok())
}

impl Footer {
    /// P.
    pub fn pages(&self) -> usize {
        self.settings.pages(self.entries)
    }

    /// How many bytes the whole file has.
    pub fn file_len(&self) -> usize {
        self.settings.file_len(self.entries)
    }

    /// Reads a footer with one of these offset widths; refuses with 102 to 108, and then 3.
    fn read(footer: &[u8; FOOTER], offset_widths: RangeInclusive<u8>) -> Result<Self, Refusal> {
        let (_, hashed) = footer.split_at(HASH);
        let (fields, stored) = hashed.split_at(hashed.len() - HASH);
        if let Some(refusal) = wrong_field(fields, offset_widths) {
            return Err(refusal);
        }
        if stored != footer_hash(fields) {
            return Err(refusal::FOOTER_HASH);
        }
        let &[.., n0, n1, n2, n3, _, _, _, _, _, _, _, _] = footer;
        Ok(Self {
            settings: Settings {
                version: fields[0].into(),
                offset_width: fields[4].into(),
                key_length: fields[6].into(),
            },
            entries: u32::from_le_bytes([n0, n1, n2, n3]) as usize,
        })
    }

    /// The footer's bytes, after a contents hash.
    pub fn bytes(&self, contents_hash: [u8; HASH]) -> [u8; FOOTER] {
        let Settings {
            version,
            offset_width,
            key_length,
        } = self.settings;
        let mut footer = [0; FOOTER];
        let (contents, hashed) = footer.split_at_mut(HASH);
        let (fields, hash) = hashed.split_at_mut(hashed.len() - HASH);
        contents.copy_from_slice(&contents_hash);
        let (bytes, count) = fields.split_at_mut(8);
        bytes.copy_from_slice(&[
            version as u8,
            RESERVED,
            RESERVED,
            PAGE_KB,
            offset_width as u8,
            SIZE_WIDTH_FIELD,
            key_length as u8,
            HASH_LENGTH,
        ]);
        count.copy_from_slice(&(self.entries as u32).to_le_bytes());
        hash.copy_from_slice(&footer_hash(fields));
        footer
    }
}

/// The refusal of the first field, from the version on, that is outside its list.
fn wrong_field(fields: &[u8], offset_widths: RangeInclusive<u8>) -> Option<Refusal> {
    let refusal = match *fields {
        [2..=255, ..] => refusal::FOOTER_VERSION,
        [_, 1..=255, ..] => refusal::FOOTER_RESERVED,
        [_, _, 1..=255, ..] => refusal::FOOTER_SECOND_RESERVED,
        [_, _, _, kb, ..] if kb != PAGE_KB => refusal::FOOTER_PAGE_SIZE,
        [_, _, _, _, w, ..] if !offset_widths.contains(&w) => refusal::FOOTER_OFFSET_WIDTH,
        [_, _, _, _, _, w, ..] if w != SIZE_WIDTH_FIELD => refusal::FOOTER_SIZE_WIDTH,
        [_, _, _, _, _, _, 0 | 17..=255, ..] => refusal::FOOTER_KEY_LENGTH,
        [_, _, _, _, _, _, _, l, ..] if l != HASH_LENGTH => refusal::FOOTER_HASH_LENGTH,
        _ => return None,
    };
    Some(refusal)
}

/// The footer hash: over the fields from version to n, and zeros in place of itself.
fn footer_hash(fields: &[u8]) -> [u8; HASH] {
    let mut hashed = [0; FOOTER - HASH];
    hashed[..fields.len()].copy_from_slice(fields);
    first_8(&hashed)
}
