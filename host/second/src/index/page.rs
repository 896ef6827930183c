//! Where a page of an index and its parts stand.

use std::ops::Range;

use super::{FOOTER, HASH, Index, PAGE};
use crate::refusal::Refusal;

/// Where the parts of a page stand in the file, and which entries it has.
#[derive(Clone, Debug, PartialEq, Eq)]
pub struct PageParts {
    /// The bytes of the page.
    pub page: Range<usize>,
    /// Those of its stored last key.
    pub last_key: Range<usize>,
    /// Those of its stored hash.
    pub hash: Range<usize>,
    /// The numbers of its entries.
    pub entries: Range<usize>,
}

/// The parts of this page; refuses as the opening checks do. What stands after the pages is counted
/// from the file's end.
pub fn page(file: &[u8], page: u64) -> Result<Option<PageParts>, Refusal> {
    let index = Index::open(file)?;
    let Ok(page) = usize::try_from(page) else {
        return Ok(None);
    };
    if page >= index.pages() {
        return Ok(None);
    }
    let after = index.pages() - 1 - page;
    let hashes_end = file.len() - FOOTER;
    let keys_end = hashes_end - index.pages() * HASH;
    let key_len = index.settings.key_len();
    let first = page * index.settings.entries_per_page();
    let (entries, _) = index.split_page(page);
    Ok(Some(PageParts {
        page: page * PAGE..(page + 1) * PAGE,
        last_key: before(keys_end - after * key_len, key_len),
        hash: before(hashes_end - after * HASH, HASH),
        entries: first..first + entries.len() / index.settings.entry_len(),
    }))
}

/// The bytes of this length up to this end.
fn before(end: usize, length: usize) -> Range<usize> {
    end - length..end
}
