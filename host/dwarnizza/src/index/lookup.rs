//! What the lookup of a key gives.

use crate::answer::{Search, Words, number};

/// What a lookup gives.
///
/// ```
/// use dwarnizza::Index;
/// use dwarnizza::index::{Lookup, Settings};
///
/// let settings = Settings { version: 1, offset_width: 4, key_length: 1 };
/// let empty = Index::write(settings, &[])?;
/// assert_eq!(Index::check(&empty)?.find([5])?, Lookup::Absent { compared: 0 });
/// # Ok::<(), dwarnizza::Refusal>(())
/// ```
#[derive(Clone, Copy, Debug, PartialEq, Eq)]
pub enum Lookup {
    /// The key is in the index.
    Found(Entry),
    /// It is not.
    Absent {
        /// How many stored keys were compared with it.
        compared: u32,
    },
}

impl Lookup {
    /// The lookup that an answer names.
    pub(super) fn from_search(search: Search) -> Self {
        match search {
            Search::Found(words) => Lookup::Found(Entry::from_words(words)),
            Search::Absent([.., compared, _, _, _]) => Lookup::Absent {
                compared: number(compared),
            },
        }
    }

    /// The entry of the key, where it was found.
    ///
    /// ```
    /// use dwarnizza::index::Lookup;
    ///
    /// assert_eq!(Lookup::Absent { compared: 3 }.found(), None);
    /// ```
    pub fn found(self) -> Option<Entry> {
        match self {
            Lookup::Found(entry) => Some(entry),
            Lookup::Absent { .. } => None,
        }
    }

    /// How many stored keys were compared with the sought one.
    ///
    /// ```
    /// use dwarnizza::index::Lookup;
    ///
    /// assert_eq!(Lookup::Absent { compared: 3 }.compared(), 3);
    /// ```
    pub fn compared(self) -> u32 {
        match self {
            Lookup::Found(entry) => entry.compared,
            Lookup::Absent { compared } => compared,
        }
    }
}

/// Where a key was found, and what its entry says.
///
/// ```
/// use dwarnizza::Index;
/// use dwarnizza::index::{Page, Settings, Slot, entry_bytes};
///
/// let settings = Settings { version: 1, offset_width: 4, key_length: 1 };
/// let file = Index::write(settings, &entry_bytes(settings, [5], 7, 0, 9)?)?;
/// let entry = Index::check(&file)?.find([5])?.found().expect("it is there");
/// assert_eq!((entry.page, entry.slot), (Page(0), Slot(0)));
/// # Ok::<(), dwarnizza::Refusal>(())
/// ```
#[derive(Clone, Copy, Debug, PartialEq, Eq)]
pub struct Entry {
    /// The page that it stands on.
    pub page: Page,
    /// Its place on that page.
    pub slot: Slot,
    /// The encoded size.
    pub size: u32,
    /// The location, as one number of as many bytes as the index's offset width;
    /// [`CheckedIndex::entry_at`](super::CheckedIndex::entry_at) tells archive number and offset.
    pub location: u64,
    /// How many stored keys were compared with the sought one.
    pub compared: u32,
}

impl Entry {
    /// The entry that an answer names.
    pub(crate) fn from_words(words: Words) -> Self {
        let [page, slot, size, location, compared, ..] = words;
        Self {
            page: Page(number(page)),
            slot: Slot(number(slot)),
            size: number(size),
            location,
            compared: number(compared),
        }
    }
}

/// The number of a page, from 0.
///
/// ```
/// use dwarnizza::index::Page;
///
/// assert!(Page(0) < Page(1));
/// ```
#[derive(Clone, Copy, Debug, PartialEq, Eq, PartialOrd, Ord, Hash)]
pub struct Page(pub u32);

/// The number of an entry within its page, from 0.
///
/// ```
/// use dwarnizza::index::Slot;
///
/// assert!(Slot(0) < Slot(1));
/// ```
#[derive(Clone, Copy, Debug, PartialEq, Eq, PartialOrd, Ord, Hash)]
pub struct Slot(pub u32);
