//! An index that nobody checked.

use super::{Footer, IndexEntry, Lookup, Page, PageParts, Slot, Summary};
use crate::answer::{number, unrefused};
use crate::library;
use crate::refusal::Refusal;

/// An archive index that nobody checked: a search may miss a key that it has.
///
/// Each call but [`footer`], [`name`] and [`is_loose`] checks footer and length by itself, and is
/// refused, by the first that holds, with [`IndexShort`], a field of the footer
/// ([`FooterVersion`] to [`FooterHashLength`]), [`FooterHash`], [`EntryCount`], [`IndexLength`].
///
/// ```
/// use dwarnizza::{Index, Reason};
///
/// let refused = Index::unchecked(b"not an index").find([5]).unwrap_err();
/// assert_eq!(refused.reason, Reason::IndexShort);
/// ```
///
/// [`footer`]: Self::footer
/// [`name`]: Self::name
/// [`is_loose`]: Self::is_loose
/// [`IndexShort`]: crate::Reason::IndexShort
/// [`FooterVersion`]: crate::Reason::FooterVersion
/// [`FooterHashLength`]: crate::Reason::FooterHashLength
/// [`FooterHash`]: crate::Reason::FooterHash
/// [`EntryCount`]: crate::Reason::EntryCount
/// [`IndexLength`]: crate::Reason::IndexLength
#[derive(Clone, Copy, Debug, PartialEq, Eq)]
pub struct UncheckedIndex<'a> {
    index: &'a [u8],
}

impl<'a> UncheckedIndex<'a> {
    pub(super) fn new(index: &'a [u8]) -> Self {
        Self { index }
    }

    /// The bytes.
    ///
    /// ```
    /// assert_eq!(dwarnizza::Index::unchecked(b"any").bytes(), b"any");
    /// ```
    pub fn bytes(self) -> &'a [u8] {
        self.index
    }

    /// What the index says of itself. The time is the same for every index.
    ///
    /// ```
    /// use dwarnizza::Index;
    ///
    /// // An index without entries, with keys of 16 bytes.
    /// let file = b"\xd4\x1d\x8c\xd9\x8f\x00\xb2\x04\x00\x00\x00\x04\x04\x04\x10\x08\
    ///              \x00\x00\x00\x00\xe0\xe3\x87\xf2\x31\x42\x6f\xd1";
    /// let summary = Index::unchecked(file).summary()?;
    /// assert_eq!((summary.settings.key_length, summary.entries), (16, 0));
    /// # Ok::<(), dwarnizza::Refusal>(())
    /// ```
    pub fn summary(self) -> Result<Summary, Refusal> {
        library::index_settings(self.index).map(Summary::from_words)
    }

    /// What the footer says. The length is not judged, so the last bytes of a file are enough.
    ///
    /// Refused, by the first that holds, with [`IndexShort`], a field of the footer
    /// ([`FooterVersion`] to [`FooterHashLength`]), [`FooterHash`], [`EntryCount`].
    ///
    /// ```
    /// use dwarnizza::Index;
    /// use dwarnizza::index::{Settings, entry_bytes};
    ///
    /// let settings = Settings { version: 1, offset_width: 4, key_length: 1 };
    /// let file = Index::write(settings, &entry_bytes(settings, [5], 7, 0, 9)?)?;
    /// let footer = Index::unchecked(&file[1000..]).footer()?;
    /// assert_eq!((footer.summary.entries, footer.file_length), (1, file.len() as u64));
    /// # Ok::<(), dwarnizza::Refusal>(())
    /// ```
    ///
    /// [`IndexShort`]: crate::Reason::IndexShort
    /// [`FooterVersion`]: crate::Reason::FooterVersion
    /// [`FooterHashLength`]: crate::Reason::FooterHashLength
    /// [`FooterHash`]: crate::Reason::FooterHash
    /// [`EntryCount`]: crate::Reason::EntryCount
    pub fn footer(self) -> Result<Footer, Refusal> {
        library::index_footer(self.index).map(Footer::from_words)
    }

    /// The MD5 of the footer's bytes, which names an archive and its index. The last bytes of a
    /// file are enough.
    ///
    /// Refused as [`footer`](Self::footer) refuses.
    ///
    /// ```
    /// use dwarnizza::{Index, Key};
    ///
    /// let name = "066a04990bc3bbc7c21bab87f0144807";
    /// let file = std::fs::read(format!("../../sample/archives/{name}.index"))?;
    /// assert_eq!(Key::from(Index::unchecked(&file).name()?).to_string(), name);
    /// # Ok::<(), Box<dyn std::error::Error>>(())
    /// ```
    pub fn name(self) -> Result<[u8; 16], Refusal> {
        let start = self.index.len() - self.footer()?.footer_length;
        crate::md5(&self.index[start..])
    }

    /// Whether the last bytes are the footer of an index of loose files or of patches, which is no
    /// archive index: other calls refuse it with
    /// [`FooterOffsetWidth`](crate::Reason::FooterOffsetWidth).
    ///
    /// ```
    /// assert!(!dwarnizza::Index::unchecked(b"any").is_loose());
    /// ```
    pub fn is_loose(self) -> bool {
        let search = unrefused(library::index_loose(self.index));
        search.found().is_some()
    }

    /// Looks a key up: halves the stored last keys to a page and that page's entries to a slot, and
    /// counts each stored key that it compares.
    ///
    /// Refused, after footer and length, with [`IndexKeyLength`](crate::Reason::IndexKeyLength)
    /// where the key has not as many bytes as the keys of the index. A key is never cut or filled
    /// up.
    ///
    /// ```
    /// use dwarnizza::Index;
    ///
    /// let name = "../../sample/archives/066a04990bc3bbc7c21bab87f0144807.index";
    /// let file = std::fs::read(name)?;
    /// assert_eq!(Index::unchecked(&file).find([7; 16])?.found(), None);
    /// # Ok::<(), Box<dyn std::error::Error>>(())
    /// ```
    pub fn find(self, key: impl AsRef<[u8]>) -> Result<Lookup, Refusal> {
        library::index_lookup(self.index, key.as_ref()).map(Lookup::from_search)
    }

    /// The most comparisons that a lookup makes, where the index passes the full check.
    ///
    /// ```
    /// use dwarnizza::Index;
    ///
    /// let name = "../../sample/archives/066a04990bc3bbc7c21bab87f0144807.index";
    /// let file = std::fs::read(name)?;
    /// assert_eq!(Index::unchecked(&file).bound()?, 10);
    /// # Ok::<(), Box<dyn std::error::Error>>(())
    /// ```
    pub fn bound(self) -> Result<u32, Refusal> {
        let [bound, ..] = library::index_bound(self.index)?;
        Ok(number(bound))
    }

    /// The entry in a slot of a page, as a lookup tells them; none where the index has no such page,
    /// or the page no such slot. The time is the same for every index, page and slot.
    ///
    /// ```
    /// use dwarnizza::Index;
    /// use dwarnizza::index::{Page, Settings, Slot, entry_bytes};
    ///
    /// let settings = Settings { version: 1, offset_width: 4, key_length: 1 };
    /// let file = Index::write(settings, &entry_bytes(settings, [5], 7, 0, 9)?)?;
    /// let index = Index::unchecked(&file);
    /// assert_eq!(index.entry_at(Page(0), Slot(0))?.expect("it has one").key, [5]);
    /// assert_eq!(index.entry_at(Page(0), Slot(1))?, None);
    /// assert_eq!(index.entry_at(Page(1), Slot(0))?, None);
    /// # Ok::<(), dwarnizza::Refusal>(())
    /// ```
    pub fn entry_at(self, page: Page, slot: Slot) -> Result<Option<IndexEntry<'a>>, Refusal> {
        let search = library::index_entry(self.index, page.0.into(), slot.0.into())?;
        let words = search.found();
        Ok(words.map(|words| IndexEntry::from_words(self.index, words)))
    }

    /// Where a page and what belongs to it stand; none where the index has no such page.
    ///
    /// ```
    /// use dwarnizza::Index;
    /// use dwarnizza::index::Page;
    ///
    /// let name = "../../sample/archives/066a04990bc3bbc7c21bab87f0144807.index";
    /// let file = std::fs::read(name)?;
    /// let index = Index::unchecked(&file);
    /// assert_eq!(index.page(Page(0))?.expect("it has one").page, 0..4096);
    /// assert_eq!(index.page(Page(1))?, None);
    /// # Ok::<(), Box<dyn std::error::Error>>(())
    /// ```
    pub fn page(self, page: Page) -> Result<Option<PageParts>, Refusal> {
        let search = library::index_page(self.index, page.0.into())?;
        Ok(search.found().map(PageParts::from_words))
    }
}
