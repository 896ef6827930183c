//! An index that passed the full check.

use std::iter::FusedIterator;

use super::{IndexEntry, Lookup, Page, PageParts, Settings, Slot, Summary, UncheckedIndex};
use crate::answer::{size, unrefused};
use crate::library;
use crate::refusal::Refusal;

/// An archive index that passed the full check: a search finds exactly the keys that stand in it.
///
/// ```
/// use dwarnizza::{Index, Key};
///
/// let name = "../../sample/archives/9287799fceb85d07bd333c9ca72c8d0b.index";
/// let file = std::fs::read(name)?;
/// let index = Index::check(&file)?;
/// let key = Key::from_text("ae5da97c10327bc86eb33511688654da", 16)?;
/// let entry = index.find(key)?.found().expect("it is there");
/// assert_eq!(entry.size, 134);
/// # Ok::<(), Box<dyn std::error::Error>>(())
/// ```
#[derive(Clone, Copy, Debug, PartialEq, Eq)]
pub struct CheckedIndex<'a> {
    unchecked: UncheckedIndex<'a>,
    summary: Summary,
}

impl<'a> CheckedIndex<'a> {
    pub(super) fn new(index: &'a [u8], summary: Summary) -> Self {
        Self {
            unchecked: UncheckedIndex::new(index),
            summary,
        }
    }

    /// The index as it is stored.
    ///
    /// ```
    /// use dwarnizza::Index;
    ///
    /// let name = "../../sample/archives/066a04990bc3bbc7c21bab87f0144807.index";
    /// let file = std::fs::read(name)?;
    /// assert_eq!(Index::check(&file)?.bytes(), file);
    /// # Ok::<(), Box<dyn std::error::Error>>(())
    /// ```
    pub fn bytes(self) -> &'a [u8] {
        self.unchecked.bytes()
    }

    /// What it says of itself.
    ///
    /// ```
    /// use dwarnizza::Index;
    ///
    /// let name = "../../sample/archives/066a04990bc3bbc7c21bab87f0144807.index";
    /// let file = std::fs::read(name)?;
    /// assert_eq!(Index::check(&file)?.summary().entries, 21);
    /// # Ok::<(), Box<dyn std::error::Error>>(())
    /// ```
    pub fn summary(self) -> Summary {
        self.summary
    }

    /// Its settings, with which [`Index::write`](super::Index::write) makes it again of its list.
    ///
    /// ```
    /// use dwarnizza::Index;
    ///
    /// let name = "../../sample/archives/066a04990bc3bbc7c21bab87f0144807.index";
    /// let file = std::fs::read(name)?;
    /// assert_eq!(Index::check(&file)?.settings().offset_width, 4);
    /// # Ok::<(), Box<dyn std::error::Error>>(())
    /// ```
    pub fn settings(self) -> Settings {
        self.summary.settings
    }

    /// The MD5 of its footer, which names the archive and the index.
    ///
    /// ```
    /// use dwarnizza::{Index, Key};
    ///
    /// let name = "066a04990bc3bbc7c21bab87f0144807";
    /// let file = std::fs::read(format!("../../sample/archives/{name}.index"))?;
    /// assert_eq!(Key::from(Index::check(&file)?.name()).to_string(), name);
    /// # Ok::<(), Box<dyn std::error::Error>>(())
    /// ```
    pub fn name(self) -> [u8; 16] {
        unrefused(self.unchecked.name())
    }

    /// Looks a key up, comparing no more stored keys than [`bound`](Self::bound) says.
    ///
    /// Refused with [`IndexKeyLength`](crate::Reason::IndexKeyLength) where the key has not as many
    /// bytes as the keys of the index. A key is never cut or filled up.
    ///
    /// ```
    /// use dwarnizza::{Index, Reason};
    ///
    /// let name = "../../sample/archives/066a04990bc3bbc7c21bab87f0144807.index";
    /// let file = std::fs::read(name)?;
    /// let index = Index::check(&file)?;
    /// assert_eq!(index.find([7; 16])?.found(), None);
    /// assert_eq!(index.find([4, 0x17]).unwrap_err().reason, Reason::IndexKeyLength);
    /// # Ok::<(), Box<dyn std::error::Error>>(())
    /// ```
    pub fn find(self, key: impl AsRef<[u8]>) -> Result<Lookup, Refusal> {
        self.unchecked.find(key)
    }

    /// The most comparisons that a lookup makes: the binary digits of its page count, those of a
    /// full page's entry count, and one.
    ///
    /// ```
    /// use dwarnizza::Index;
    ///
    /// let name = "../../sample/archives/066a04990bc3bbc7c21bab87f0144807.index";
    /// let file = std::fs::read(name)?;
    /// let index = Index::check(&file)?;
    /// assert!(index.find([7; 16])?.compared() <= index.bound());
    /// # Ok::<(), Box<dyn std::error::Error>>(())
    /// ```
    pub fn bound(self) -> u32 {
        unrefused(self.unchecked.bound())
    }

    /// Its entries, in the order of their keys.
    ///
    /// ```
    /// use dwarnizza::Index;
    ///
    /// let name = "../../sample/archives/066a04990bc3bbc7c21bab87f0144807.index";
    /// let file = std::fs::read(name)?;
    /// let index = Index::check(&file)?;
    /// assert_eq!(index.entries().len(), 21);
    /// assert!(index.entries().is_sorted_by_key(|entry| entry.key));
    /// # Ok::<(), Box<dyn std::error::Error>>(())
    /// ```
    pub fn entries(self) -> Entries<'a> {
        Entries {
            index: self,
            page: Page(0),
            slot: Slot(0),
            left: self.summary.entries,
        }
    }

    /// The entries of a page, in the order of their keys; none where the index has no such page.
    ///
    /// ```
    /// use dwarnizza::Index;
    /// use dwarnizza::index::Page;
    ///
    /// let name = "../../sample/archives/066a04990bc3bbc7c21bab87f0144807.index";
    /// let file = std::fs::read(name)?;
    /// let index = Index::check(&file)?;
    /// assert!(index.entries_on(Page(0)).eq(index.entries()));
    /// assert_eq!(index.entries_on(Page(1)).len(), 0);
    /// # Ok::<(), Box<dyn std::error::Error>>(())
    /// ```
    pub fn entries_on(self, page: Page) -> Entries<'a> {
        Entries {
            index: self,
            page,
            slot: Slot(0),
            left: self.page(page).map_or(0, |parts| parts.entries),
        }
    }

    /// The entry in a slot of a page, as a lookup tells them; none where the index has no such page,
    /// or the page no such slot.
    ///
    /// ```
    /// use dwarnizza::{Index, Key};
    ///
    /// let file = std::fs::read("../../sample/group/8055d3f0c6896ec8ef135a1791fcec0a.index")?;
    /// let index = Index::check(&file)?;
    /// let key = Key::from_text("d9a58e82d9fc4997d14bd52da88f6975", 16)?;
    /// let found = index.find(key)?.found().expect("it is there");
    /// let entry = index.entry_at(found.page, found.slot).expect("it is there");
    /// assert_eq!((entry.archive, entry.offset), (2, 270));
    /// # Ok::<(), Box<dyn std::error::Error>>(())
    /// ```
    pub fn entry_at(self, page: Page, slot: Slot) -> Option<IndexEntry<'a>> {
        unrefused(self.unchecked.entry_at(page, slot))
    }

    /// Where a page and what belongs to it stand; none where the index has no such page.
    ///
    /// ```
    /// use dwarnizza::Index;
    /// use dwarnizza::index::Page;
    ///
    /// let name = "../../sample/archives/066a04990bc3bbc7c21bab87f0144807.index";
    /// let file = std::fs::read(name)?;
    /// let index = Index::check(&file)?;
    /// assert_eq!(index.page(Page(0)).expect("it has one").entries, 21);
    /// assert_eq!(index.page(Page(1)), None);
    /// # Ok::<(), Box<dyn std::error::Error>>(())
    /// ```
    pub fn page(self, page: Page) -> Option<PageParts> {
        unrefused(self.unchecked.page(page))
    }

    /// Its list: its entries' bytes, in order, with nothing between.
    ///
    /// ```
    /// use dwarnizza::Index;
    /// use dwarnizza::index::{Settings, entry_bytes};
    ///
    /// let settings = Settings { version: 1, offset_width: 4, key_length: 1 };
    /// let list = entry_bytes(settings, [5], 7, 0, 9)?;
    /// let file = Index::write(settings, &list)?;
    /// assert_eq!(Index::check(&file)?.list(), list);
    /// # Ok::<(), dwarnizza::Refusal>(())
    /// ```
    pub fn list(self) -> Vec<u8> {
        // A list is shorter than its index.
        let mut list = vec![0; self.bytes().len()];
        let length = unrefused(self.list_into(&mut list));
        list.truncate(length);
        list
    }

    /// Writes its list to the start of `output`, and gives its length, which is below that of the
    /// index. The bytes past it stay.
    ///
    /// Refused with [`OutputShort`](crate::Reason::OutputShort) where the output is shorter than
    /// the list; the output is then as it was.
    ///
    /// ```
    /// use dwarnizza::{Index, Reason};
    ///
    /// let name = "../../sample/archives/066a04990bc3bbc7c21bab87f0144807.index";
    /// let file = std::fs::read(name)?;
    /// let index = Index::check(&file)?;
    /// let mut output = vec![0; index.list().len()];
    /// assert_eq!(index.list_into(&mut output)?, output.len());
    /// assert_eq!(index.list_into(&mut []).unwrap_err().reason, Reason::OutputShort);
    /// # Ok::<(), Box<dyn std::error::Error>>(())
    /// ```
    pub fn list_into(self, output: &mut [u8]) -> Result<usize, Refusal> {
        let [length, ..] = library::index_list(self.bytes(), output)?;
        Ok(size(length))
    }
}

/// Entries of an index, in the order of their keys: [`CheckedIndex::entries`] and
/// [`CheckedIndex::entries_on`].
///
/// ```
/// use dwarnizza::Index;
/// use dwarnizza::index::{Page, Slot};
///
/// let name = "../../sample/archives/066a04990bc3bbc7c21bab87f0144807.index";
/// let file = std::fs::read(name)?;
/// let index = Index::check(&file)?;
/// // A skip goes over what is skipped; a place is known at once.
/// assert_eq!(index.entries().nth(10), index.entry_at(Page(0), Slot(10)));
/// # Ok::<(), Box<dyn std::error::Error>>(())
/// ```
#[derive(Clone, Debug)]
pub struct Entries<'a> {
    index: CheckedIndex<'a>,
    /// Where the next entry stands; past a page's entries it is the first of the next page.
    page: Page,
    slot: Slot,
    /// How many are to come.
    left: usize,
}

impl<'a> Entries<'a> {
    /// The first entry of the page after this one.
    fn turn(&mut self) -> IndexEntry<'a> {
        self.page = Page(self.page.0 + 1);
        self.slot = Slot(0);
        let first = self.index.entry_at(self.page, self.slot);
        first.expect("a checked index has the entries that it says, and each page has one")
    }
}

impl<'a> Iterator for Entries<'a> {
    type Item = IndexEntry<'a>;

    fn next(&mut self) -> Option<Self::Item> {
        self.left = self.left.checked_sub(1)?;
        let here = self.index.entry_at(self.page, self.slot);
        let entry = here.unwrap_or_else(|| self.turn());
        self.slot = Slot(self.slot.0 + 1);
        Some(entry)
    }

    fn size_hint(&self) -> (usize, Option<usize>) {
        (self.left, Some(self.left))
    }
}

impl ExactSizeIterator for Entries<'_> {}

impl FusedIterator for Entries<'_> {}
