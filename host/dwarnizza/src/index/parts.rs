//! Where the parts of an index stand.

use std::ops::Range;

use super::{Slot, Summary};
use crate::answer::{Words, number, size};

/// What the footer of an index says.
///
/// ```
/// use dwarnizza::Index;
///
/// let name = "../../sample/archives/066a04990bc3bbc7c21bab87f0144807.index";
/// let file = std::fs::read(name)?;
/// // The last bytes of a file are enough.
/// let footer = Index::unchecked(&file[file.len() - 100..]).footer()?;
/// assert_eq!(footer.file_length, file.len() as u64);
/// # Ok::<(), Box<dyn std::error::Error>>(())
/// ```
#[derive(Clone, Copy, Debug, PartialEq, Eq)]
#[non_exhaustive]
pub struct Footer {
    /// What it says of the index.
    pub summary: Summary,
    /// How many bytes the whole file has that this footer belongs to.
    pub file_length: u64,
    /// How many bytes the footer has, which are the last of the file.
    pub footer_length: usize,
}

impl Footer {
    /// The footer that an answer names.
    pub(super) fn from_words(words: Words) -> Self {
        let [.., file_length, footer_length, _] = words;
        Self {
            summary: Summary::from_words(words),
            file_length,
            footer_length: size(footer_length),
        }
    }
}

/// Where a page of an index and what belongs to it stand, in bytes from the start of the index.
///
/// ```
/// use dwarnizza::Index;
/// use dwarnizza::index::Page;
///
/// let name = "../../sample/archives/066a04990bc3bbc7c21bab87f0144807.index";
/// let file = std::fs::read(name)?;
/// let parts = Index::check(&file)?.page(Page(0)).expect("it has one");
/// assert_eq!(file[parts.hash], dwarnizza::md5(&file[parts.page])?[..8]);
/// # Ok::<(), Box<dyn std::error::Error>>(())
/// ```
#[derive(Clone, Debug, PartialEq, Eq)]
#[non_exhaustive]
pub struct PageParts {
    /// The page.
    pub page: Range<usize>,
    /// Its stored last key.
    pub last_key: Range<usize>,
    /// Its stored hash.
    pub hash: Range<usize>,
    /// The number of its first entry.
    pub first_entry: u64,
    /// How many entries it has.
    pub entries: usize,
}

impl PageParts {
    /// The slots of its entries, from 0.
    ///
    /// ```
    /// use dwarnizza::Index;
    /// use dwarnizza::index::{Page, Slot};
    ///
    /// let name = "../../sample/archives/066a04990bc3bbc7c21bab87f0144807.index";
    /// let file = std::fs::read(name)?;
    /// let parts = Index::check(&file)?.page(Page(0)).expect("it has one");
    /// assert_eq!(parts.slots().next_back(), Some(Slot(20)));
    /// # Ok::<(), Box<dyn std::error::Error>>(())
    /// ```
    pub fn slots(&self) -> impl DoubleEndedIterator<Item = Slot> + use<> {
        (0..number(self.entries as u64)).map(Slot)
    }

    /// The parts that an answer names.
    pub(super) fn from_words(words: Words) -> Self {
        let [
            page,
            page_length,
            last_key,
            key_length,
            hash,
            hash_length,
            first_entry,
            entries,
        ] = words;
        let range = |place, length| size(place)..size(place) + size(length);
        Self {
            page: range(page, page_length),
            last_key: range(last_key, key_length),
            hash: range(hash, hash_length),
            first_entry,
            entries: size(entries),
        }
    }
}
