//! Archive indexes: for each encoding key, its encoded size and location.
//!
//! ```
//! use dwarnizza::Index;
//! use dwarnizza::index::{Settings, entry_bytes};
//!
//! let settings = Settings { version: 1, offset_width: 4, key_length: 1 };
//! let list = entry_bytes(settings, [5], 7, 0, 9)?; // key 05, size 7, offset 9
//! let file = Index::write(settings, &list)?;
//!
//! let index = Index::check(&file)?;
//! let entry = index.find([5])?.found().expect("it is there");
//! assert_eq!((entry.size, entry.location), (7, 9));
//! assert_eq!(index.list(), list);
//! # Ok::<(), dwarnizza::Refusal>(())
//! ```

mod checked;
mod entry;
mod lookup;
mod parts;
mod unchecked;

pub use checked::{CheckedIndex, Entries};
pub use entry::{IndexEntry, entry_bytes, entry_bytes_into};
pub use lookup::{Entry, Lookup, Page, Slot};
pub use parts::{Footer, PageParts};
pub use unchecked::UncheckedIndex;

use crate::answer::{Words, number, size, unrefused};
use crate::library;
use crate::refusal::Refusal;

/// Where calls on archive indexes begin: [`Index::check`] or [`Index::unchecked`] for one that is
/// there, [`Index::write`] for a new one.
///
/// ```
/// use dwarnizza::Index;
///
/// let name = "../../sample/archives/066a04990bc3bbc7c21bab87f0144807.index";
/// let file = std::fs::read(name)?;
/// assert!(Index::check(&file).is_ok());
/// # Ok::<(), Box<dyn std::error::Error>>(())
/// ```
#[derive(Debug)]
pub enum Index {}

impl Index {
    /// The full check of an index.
    ///
    /// Refused, by the first that holds, with [`IndexShort`], a field of the footer
    /// ([`FooterVersion`] to [`FooterHashLength`]), [`FooterHash`], [`EntryCount`],
    /// [`IndexLength`], and then page by page with [`IndexPageHash`], [`IndexPadding`],
    /// [`IndexOrder`], [`LastKey`].
    ///
    /// ```
    /// use dwarnizza::{Index, Reason};
    ///
    /// let refused = Index::check(b"not an index").unwrap_err();
    /// assert_eq!(refused.reason, Reason::IndexShort);
    /// ```
    ///
    /// [`IndexShort`]: crate::Reason::IndexShort
    /// [`FooterVersion`]: crate::Reason::FooterVersion
    /// [`FooterHashLength`]: crate::Reason::FooterHashLength
    /// [`FooterHash`]: crate::Reason::FooterHash
    /// [`EntryCount`]: crate::Reason::EntryCount
    /// [`IndexLength`]: crate::Reason::IndexLength
    /// [`IndexPageHash`]: crate::Reason::IndexPageHash
    /// [`IndexPadding`]: crate::Reason::IndexPadding
    /// [`IndexOrder`]: crate::Reason::IndexOrder
    /// [`LastKey`]: crate::Reason::LastKey
    pub fn check(index: &[u8]) -> Result<CheckedIndex<'_>, Refusal> {
        let summary = Summary::from_words(library::index_check(index)?);
        Ok(CheckedIndex::new(index, summary))
    }

    /// Bytes that nobody checked. A search in them makes only the checks of footer and length, and
    /// may miss a key that the index has.
    ///
    /// ```
    /// use dwarnizza::{Index, Reason};
    ///
    /// let refused = Index::unchecked(b"not an index").summary().unwrap_err();
    /// assert_eq!(refused.reason, Reason::IndexShort);
    /// ```
    pub fn unchecked(index: &[u8]) -> UncheckedIndex<'_> {
        UncheckedIndex::new(index)
    }

    /// The index of a list with these settings. A list is of entries' bytes, in order, with nothing
    /// between.
    ///
    /// What is written passes [`Index::check`], and its list and settings are those given. The list
    /// of an index that passes it, written with that index's settings, gives the same file but for
    /// the eight bytes of the contents hash.
    ///
    /// Refused, by the first that holds, with [`Settings`], [`ListLength`], [`EntryCount`] and
    /// [`IndexOrder`].
    ///
    /// ```
    /// use dwarnizza::Index;
    ///
    /// let name = "../../sample/archives/066a04990bc3bbc7c21bab87f0144807.index";
    /// let file = std::fs::read(name)?;
    /// let index = Index::check(&file)?;
    /// assert_eq!(Index::write(index.settings(), &index.list())?, file);
    /// # Ok::<(), Box<dyn std::error::Error>>(())
    /// ```
    ///
    /// [`Settings`]: crate::Reason::Settings
    /// [`ListLength`]: crate::Reason::ListLength
    /// [`EntryCount`]: crate::Reason::EntryCount
    /// [`IndexOrder`]: crate::Reason::IndexOrder
    pub fn write(settings: Settings, list: &[u8]) -> Result<Vec<u8>, Refusal> {
        let mut file = vec![0; Self::written_length(settings, list)?];
        unrefused(Self::write_into(settings, list, &mut file));
        Ok(file)
    }

    /// Writes the index of a list with these settings to the start of `output`, and gives its
    /// length. The bytes past it stay.
    ///
    /// Refused as [`Index::write`] refuses, and then with [`OutputShort`] where the output is
    /// shorter than the index; the output is then as it was.
    ///
    /// ```
    /// use dwarnizza::index::Settings;
    /// use dwarnizza::{Index, Reason};
    ///
    /// let settings = Settings { version: 1, offset_width: 4, key_length: 16 };
    /// let refused = Index::write_into(settings, &[], &mut []).unwrap_err();
    /// assert_eq!(refused.reason, Reason::OutputShort);
    /// ```
    ///
    /// [`OutputShort`]: crate::Reason::OutputShort
    pub fn write_into(
        settings: Settings,
        list: &[u8],
        output: &mut [u8],
    ) -> Result<usize, Refusal> {
        let [length, ..] = library::index_write(settings, list, output)?;
        Ok(size(length))
    }

    /// The length of the index of a list with these settings.
    ///
    /// Refused as [`Index::write`] refuses.
    ///
    /// ```
    /// use dwarnizza::Index;
    /// use dwarnizza::index::Settings;
    ///
    /// let settings = Settings { version: 1, offset_width: 4, key_length: 16 };
    /// let length = Index::written_length(settings, &[])?;
    /// assert_eq!(Index::write(settings, &[])?.len(), length);
    /// # Ok::<(), dwarnizza::Refusal>(())
    /// ```
    pub fn written_length(settings: Settings, list: &[u8]) -> Result<usize, Refusal> {
        let [length, ..] = library::index_written_length(settings, list)?;
        Ok(size(length))
    }

    /// The listing of an index: a line for the whole, then one for each entry.
    ///
    /// Refused with [`ListingInput`] above 65,536 bytes, then as [`Index::check`] refuses.
    ///
    /// ```
    /// use dwarnizza::Index;
    /// use dwarnizza::index::{Settings, entry_bytes};
    ///
    /// let settings = Settings { version: 1, offset_width: 4, key_length: 1 };
    /// let file = Index::write(settings, &entry_bytes(settings, [5], 7, 0, 9)?)?;
    /// let text = "index key=1 offset=4 entries=1 pages=1\n05 7 - 9\n";
    /// assert_eq!(Index::listing(&file)?, text);
    /// # Ok::<(), dwarnizza::Refusal>(())
    /// ```
    ///
    /// [`ListingInput`]: crate::Reason::ListingInput
    pub fn listing(index: &[u8]) -> Result<String, Refusal> {
        let mut text = vec![0; Self::listing_into(index, &mut [])?];
        unrefused(Self::listing_into(index, &mut text));
        Ok(String::from_utf8(text).expect("a listing is text"))
    }

    /// Writes the listing of an index to the start of `output` where it fits, and gives its length.
    /// The bytes past it stay, and all of them where it does not fit.
    ///
    /// Refused as [`Index::listing`] refuses; the output is then as it was.
    ///
    /// ```
    /// use dwarnizza::Index;
    ///
    /// let name = "../../sample/archives/066a04990bc3bbc7c21bab87f0144807.index";
    /// let file = std::fs::read(name)?;
    /// let mut output = vec![0; 10_000];
    /// let length = Index::listing_into(&file, &mut output)?;
    /// assert_eq!(output[..length], *Index::listing(&file)?.as_bytes());
    /// # Ok::<(), Box<dyn std::error::Error>>(())
    /// ```
    pub fn listing_into(index: &[u8], output: &mut [u8]) -> Result<usize, Refusal> {
        let [length, ..] = library::index_listing(index, output)?;
        Ok(size(length))
    }
}

/// What an index says of itself.
///
/// ```
/// use dwarnizza::Index;
///
/// let name = "../../sample/archives/066a04990bc3bbc7c21bab87f0144807.index";
/// let file = std::fs::read(name)?;
/// let summary = Index::check(&file)?.summary();
/// assert_eq!((summary.entries, summary.pages), (21, 1));
/// # Ok::<(), Box<dyn std::error::Error>>(())
/// ```
#[derive(Clone, Copy, Debug, PartialEq, Eq)]
pub struct Summary {
    /// How its entries are laid out.
    pub settings: Settings,
    /// How many entries it has.
    pub entries: usize,
    /// How many pages of 4,096 bytes they fill.
    pub pages: usize,
}

impl Summary {
    /// The numbers of its pages, from 0.
    ///
    /// ```
    /// use dwarnizza::Index;
    /// use dwarnizza::index::Page;
    ///
    /// let name = "../../sample/archives/066a04990bc3bbc7c21bab87f0144807.index";
    /// let file = std::fs::read(name)?;
    /// assert!(Index::check(&file)?.summary().page_numbers().eq([Page(0)]));
    /// # Ok::<(), Box<dyn std::error::Error>>(())
    /// ```
    pub fn page_numbers(self) -> impl DoubleEndedIterator<Item = Page> {
        (0..number(self.pages as u64)).map(Page)
    }

    /// The summary that an answer names.
    fn from_words(words: Words) -> Self {
        let [version, offset_width, key_length, entries, pages, ..] = words;
        let setting = |word| u8::try_from(word).expect("a setting has 8 bits");
        Self {
            settings: Settings {
                version: setting(version),
                offset_width: setting(offset_width),
                key_length: setting(key_length),
            },
            entries: size(entries),
            pages: size(pages),
        }
    }
}

/// The settings of an index.
///
/// ```
/// use dwarnizza::index::Settings;
/// use dwarnizza::{Index, Reason};
///
/// let settings = Settings { version: 1, offset_width: 7, key_length: 16 };
/// let refused = Index::write(settings, &[]).unwrap_err();
/// assert_eq!(refused.reason, Reason::Settings);
/// ```
#[derive(Clone, Copy, Debug, PartialEq, Eq)]
pub struct Settings {
    /// The version, 0 or 1.
    pub version: u8,
    /// How many bytes a location has: 4, 5 or 6.
    pub offset_width: u8,
    /// How many bytes a key has: 1 to 16.
    pub key_length: u8,
}

impl Settings {
    /// Whether a location is an archive number and an offset, as in the index of several archives,
    /// and not an offset alone: the offset width is 6.
    ///
    /// ```
    /// use dwarnizza::Index;
    ///
    /// let file = std::fs::read("../../sample/group/8055d3f0c6896ec8ef135a1791fcec0a.index")?;
    /// assert!(Index::check(&file)?.settings().has_archives());
    /// # Ok::<(), Box<dyn std::error::Error>>(())
    /// ```
    pub fn has_archives(self) -> bool {
        self.offset_width == 6
    }
}
