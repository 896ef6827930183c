//! One entry: of an index, and of a list.

use super::{Page, Settings, Slot};
use crate::answer::{Words, number, part, size};
use crate::library;
use crate::refusal::Refusal;

/// The most bytes that an entry has: a key of 16, a size of 4 and a location of 6.
const MOST: usize = 26;

/// An entry of an index.
///
/// ```
/// use dwarnizza::Index;
/// use dwarnizza::index::{Settings, entry_bytes};
///
/// let settings = Settings { version: 1, offset_width: 6, key_length: 1 };
/// let file = Index::write(settings, &entry_bytes(settings, [5], 7, 2, 9)?)?;
/// let entry = Index::check(&file)?.entries().next().expect("it has one");
/// assert_eq!((entry.key, entry.size, entry.archive, entry.offset), (&[5][..], 7, 2, 9));
/// # Ok::<(), dwarnizza::Refusal>(())
/// ```
#[derive(Clone, Copy, Debug, PartialEq, Eq)]
pub struct IndexEntry<'a> {
    /// The encoding key, as it stands in the index.
    pub key: &'a [u8],
    /// The encoded size.
    pub size: u32,
    /// The number of the archive; 0 where the index does not have offset width 6.
    pub archive: u32,
    /// The offset in the archive.
    pub offset: u64,
    /// The page that the entry stands on.
    pub page: Page,
    /// Its place on that page.
    pub slot: Slot,
    /// The byte offset in the index where it stands.
    pub place: usize,
}

impl<'a> IndexEntry<'a> {
    /// The entry of this index that an answer names.
    pub(super) fn from_words(index: &'a [u8], words: Words) -> Self {
        let [
            place,
            key_length,
            encoded_size,
            archive,
            offset,
            page,
            slot,
            _,
        ] = words;
        Self {
            key: part(index, place, key_length),
            size: number(encoded_size),
            archive: number(archive),
            offset,
            page: Page(number(page)),
            slot: Slot(number(slot)),
            place: size(place),
        }
    }
}

/// The bytes of one entry of a list.
///
/// With offset width 6 a location is an archive number of two bytes and an offset of four; with 4
/// and 5 it is the offset alone, and the archive is 0.
///
/// Refused, by the first that holds, with [`Settings`] where a setting is wrong or `archive` and
/// `offset` do not fit the offset width, and with [`IndexKeyLength`] where the key has not as many
/// bytes as the settings say.
///
/// ```
/// use dwarnizza::index::{Settings, entry_bytes};
///
/// let settings = Settings { version: 1, offset_width: 6, key_length: 1 };
/// let entry = entry_bytes(settings, [5], 7, 2, 9)?;
/// assert_eq!(entry, [5, 0, 0, 0, 7, 0, 2, 0, 0, 0, 9]);
/// # Ok::<(), dwarnizza::Refusal>(())
/// ```
///
/// [`Settings`]: crate::Reason::Settings
/// [`IndexKeyLength`]: crate::Reason::IndexKeyLength
pub fn entry_bytes(
    settings: Settings,
    key: impl AsRef<[u8]>,
    size: u32,
    archive: u32,
    offset: u64,
) -> Result<Vec<u8>, Refusal> {
    let mut output = [0; MOST];
    let length = entry_bytes_into(settings, key, size, archive, offset, &mut output)?;
    Ok(output[..length].to_vec())
}

/// Writes the bytes of one entry of a list to the start of `output`, and gives how many they are.
/// The bytes past them stay.
///
/// Refused as [`entry_bytes`] refuses, and then with [`OutputShort`](crate::Reason::OutputShort);
/// the output is then as it was.
///
/// ```
/// use dwarnizza::index::{Settings, entry_bytes_into};
///
/// let settings = Settings { version: 1, offset_width: 4, key_length: 1 };
/// let mut output = [0xee; 10];
/// assert_eq!(entry_bytes_into(settings, [5], 7, 0, 9, &mut output)?, 9);
/// assert_eq!(output, [5, 0, 0, 0, 7, 0, 0, 0, 9, 0xee]);
/// # Ok::<(), dwarnizza::Refusal>(())
/// ```
pub fn entry_bytes_into(
    settings: Settings,
    key: impl AsRef<[u8]>,
    size: u32,
    archive: u32,
    offset: u64,
    output: &mut [u8],
) -> Result<usize, Refusal> {
    let numbers = (size, archive, offset);
    let [length, ..] = library::list_put(settings, key.as_ref(), numbers, output)?;
    Ok(crate::answer::size(length))
}
