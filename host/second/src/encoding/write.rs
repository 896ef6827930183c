//! Encoding files from their parts.

use super::entry::{content_entries, encoding_entries};
use super::{Header, TableSizes};
use crate::md5;

/// The parts of a file to be written. They may be any; what a header field cannot hold panics.
#[derive(Clone, Debug)]
pub struct Parts {
    /// The spec table.
    pub specs: Vec<u8>,
    /// The content pages.
    pub content: TableParts,
    /// The encoding pages.
    pub encoding: TableParts,
    /// The file's own spec.
    pub own_spec: Vec<u8>,
}

/// The pages of one kind.
#[derive(Clone, Debug)]
pub struct TableParts {
    /// How many bytes a key has.
    pub key_size: u8,
    /// How many KB a page has.
    pub page_kb: u16,
    /// The pages, each filled up with zeros where it is too short.
    pub pages: Vec<Vec<u8>>,
}

impl Parts {
    /// The header of the file.
    pub fn header(&self) -> Header {
        Header {
            content: self.content.sizes(),
            encoding: self.encoding.sizes(),
            spec_size: count(self.specs.len()),
        }
    }
}

impl TableParts {
    fn sizes(&self) -> TableSizes {
        TableSizes {
            key_size: self.key_size,
            page_kb: self.page_kb,
            pages: count(self.pages.len()),
        }
    }

    /// The pages, filled up.
    fn filled(&self) -> Vec<u8> {
        let length = self.sizes().page_len();
        let mut pages = Vec::with_capacity(self.pages.len() * length);
        for page in &self.pages {
            assert!(page.len() <= length, "a page is too long");
            pages.extend(page);
            pages.resize(pages.len() + length - page.len(), 0);
        }
        pages
    }
}

/// The file of these parts. All first keys and page hashes are right; a page without an entry has a
/// first key of zeros.
pub fn write(parts: &Parts) -> Vec<u8> {
    let header = parts.header();
    let key_len = header.content.key_len();
    let encoding_key_len = header.encoding.key_len();
    let content_pages = parts.content.filled();
    let encoding_pages = parts.encoding.filled();
    let content_index = index(header.content, &content_pages, |page| {
        let first = content_entries(page, key_len, encoding_key_len).next()?;
        Some(first.ok()?.key)
    });
    let encoding_index = index(header.encoding, &encoding_pages, |page| {
        Some(encoding_entries(page, encoding_key_len).next()?.key)
    });
    [
        &header.bytes(),
        &parts.specs,
        &content_index,
        &content_pages,
        &encoding_index,
        &encoding_pages,
        &parts.own_spec,
    ]
    .into_iter()
    .flatten()
    .copied()
    .collect()
}

/// The pages of entries, each as full as the next entry allows.
pub fn paged(entries: impl IntoIterator<Item = Vec<u8>>, page_kb: u16) -> Vec<Vec<u8>> {
    let length = usize::from(page_kb) * 1024;
    let mut pages: Vec<Vec<u8>> = Vec::new();
    for entry in entries {
        match pages.last_mut() {
            Some(page) if page.len() + entry.len() <= length => page.extend(entry),
            _ => pages.push(entry),
        }
    }
    pages
}

/// The index of pages, of which this gives the first key.
fn index(sizes: TableSizes, pages: &[u8], first_key: impl Fn(&[u8]) -> Option<&[u8]>) -> Vec<u8> {
    let mut index = Vec::with_capacity(sizes.index_len());
    for page in pages.chunks_exact(sizes.page_len()) {
        index.extend(first_key(page).unwrap_or(&[0; 16][..sizes.key_len()]));
        index.extend(md5::digest(page).expect("a page is below the limit"));
    }
    index
}

fn count(parts: usize) -> u32 {
    u32::try_from(parts).expect("a header field holds it")
}
