//! Archive indexes.

mod check;
mod entry;
mod footer;
mod listing;
mod lookup;
mod page;
mod write;

pub use check::{check, list};
pub use entry::{Entry, entry, put_entry};
pub use footer::{Footer, footer, is_loose};
pub use listing::{MOST_LISTED, listing, printed};
pub use lookup::{Found, Lookup, bound, lookup};
pub use page::{PageParts, page};
pub use write::{write, written_length};

use std::array;

use crate::md5;
use crate::refusal::{self, Refusal};

/// How many bytes a page has.
pub const PAGE: usize = 4096;

/// How many bytes a footer has.
pub const FOOTER: usize = 28;

/// The most entries of an index.
pub const MOST_ENTRIES: usize = 8_388_608;

/// How many bytes of an MD5 are stored.
const HASH: usize = 8;

/// How many bytes an encoded size has.
const SIZE_WIDTH: usize = 4;

/// The settings of an index. They may be any; those outside their lists are refused.
#[derive(Clone, Copy, Debug, PartialEq, Eq)]
pub struct Settings {
    /// 0 or 1.
    pub version: u32,
    /// W: 4, 5 or 6.
    pub offset_width: u32,
    /// K: 1 to 16.
    pub key_length: u32,
}

impl Settings {
    fn allowed(self) -> bool {
        matches!(self.version, 0 | 1)
            && matches!(self.offset_width, 4..=6)
            && matches!(self.key_length, 1..=16)
    }

    /// How many bytes a key has: K.
    pub fn key_len(self) -> usize {
        self.key_length as usize
    }

    /// How many bytes an entry has: key, encoded size, location.
    pub fn entry_len(self) -> usize {
        self.key_len() + SIZE_WIDTH + self.offset_width as usize
    }

    /// E: how many entries a full page holds.
    pub fn entries_per_page(self) -> usize {
        PAGE / self.entry_len()
    }

    /// P: how many pages this number of entries takes.
    pub fn pages(self, entries: usize) -> usize {
        entries.div_ceil(self.entries_per_page())
    }

    /// How many bytes the file with this number of entries has.
    pub fn file_len(self, entries: usize) -> usize {
        self.pages(entries) * (PAGE + self.key_len() + HASH) + FOOTER
    }
}

/// The parts of a file whose footer and length are good: it passes the opening checks, and
/// the rest is as it is.
#[derive(Clone, Copy, Debug)]
pub struct Index<'a> {
    settings: Settings,
    entries: usize,
    pages: &'a [[u8; PAGE]],
    last_keys: &'a [u8],
    page_hashes: &'a [[u8; HASH]],
}

impl<'a> Index<'a> {
    /// Opens a file; refuses as the opening checks do.
    pub fn open(file: &'a [u8]) -> Result<Self, Refusal> {
        let footer = footer(file)?;
        if file.len() != footer.file_len() {
            return Err(refusal::FILE_LENGTH);
        }
        let Footer { settings, entries } = footer;
        let pages = footer.pages();
        let (page_bytes, rest) = file.split_at(pages * PAGE);
        let (last_keys, rest) = rest.split_at(pages * settings.key_len());
        let (page_hashes, _) = rest.split_at(pages * HASH);
        Ok(Self {
            settings,
            entries,
            pages: page_bytes.as_chunks().0,
            last_keys,
            page_hashes: page_hashes.as_chunks().0,
        })
    }

    /// Version, W and K.
    pub fn settings(&self) -> Settings {
        self.settings
    }

    /// n.
    pub fn entries(&self) -> usize {
        self.entries
    }

    /// P.
    pub fn pages(&self) -> usize {
        self.pages.len()
    }

    /// How many bytes the list has.
    pub fn list_len(&self) -> usize {
        self.entries * self.settings.entry_len()
    }

    /// The bytes of a page's entries, and those after them.
    fn split_page(&self, page: usize) -> (&'a [u8], &'a [u8]) {
        let full = self.settings.entries_per_page();
        let entries = (self.entries - page * full).min(full);
        self.pages[page].split_at(entries * self.settings.entry_len())
    }

    /// The stored last key of a page.
    fn last_key(&self, page: usize) -> &'a [u8] {
        let length = self.settings.key_len();
        &self.last_keys[page * length..][..length]
    }
}

/// The first 8 bytes of the MD5.
fn first_8(data: &[u8]) -> [u8; HASH] {
    let digest = md5::digest(data).expect("parts of an index are far below the limit");
    array::from_fn(|i| digest[i])
}
