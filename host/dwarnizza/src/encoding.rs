//! Encoding files: for each content key its encoding keys, and for each encoding key how it was
//! encoded.
//!
//! A file is given as it is taken out of its envelope. Its entries are handed back as they stand in
//! it, and nothing is copied.
//!
//! ```
//! use dwarnizza::Encoding;
//!
//! // A file whose content key 05 has the encoding key a1, which was encoded by the spec z.
//! let mut file = b"EN\x01\x01\x01\0\x01\0\x01\0\0\0\x01\0\0\0\x01\0\0\0\0\x04".to_vec();
//! file.extend(b"n\0z\0");
//! let content_entry: &[u8] = &[1, 0, 0, 0, 0, 7, 0x05, 0xa1];
//! let encoding_entry: &[u8] = &[0xa1, 0, 0, 0, 1, 0, 0, 0, 0, 9];
//! for (first_key, entry) in [(0x05, content_entry), (0xa1, encoding_entry)] {
//!     let mut page = entry.to_vec();
//!     page.resize(1024, 0);
//!     file.push(first_key);
//!     file.extend(dwarnizza::md5(&page)?);
//!     file.extend(page);
//! }
//!
//! let encoding = Encoding::check(&file)?;
//! let content = encoding.find_content([0x05])?.expect("it is there");
//! assert_eq!((content.size, content.encoding_keys), (7, &[0xa1][..]));
//! let encoded = encoding.find_encoding([0xa1])?.expect("it is there");
//! assert_eq!((encoded.size, encoded.spec), (9, &b"z"[..]));
//! # Ok::<(), dwarnizza::Refusal>(())
//! ```

use std::slice::ChunksExact;

use crate::answer::{number, part};
use crate::library;
use crate::refusal::Refusal;

/// Where calls on encoding files begin: [`Encoding::check`], or [`Encoding::unchecked`].
///
/// ```
/// use dwarnizza::Encoding;
///
/// let file = std::fs::read("../../sample/encoding")?;
/// assert!(Encoding::check(&file).is_ok());
/// # Ok::<(), Box<dyn std::error::Error>>(())
/// ```
#[derive(Debug)]
pub enum Encoding {}

impl Encoding {
    /// The full check of an encoding file.
    ///
    /// Refused, by the first that holds, with [`NotEncoding`], [`EncodingHeader`], [`EncodingCut`],
    /// [`SpecTableOpen`], and then page by page, first the content pages and then the encoding
    /// pages, with [`EncodingPageHash`], [`EntryOverPage`], [`FirstKey`], [`EncodingOrder`],
    /// [`SpecNumber`].
    ///
    /// ```
    /// use dwarnizza::{Encoding, Reason};
    ///
    /// let refused = Encoding::check(b"not an encoding file").unwrap_err();
    /// assert_eq!(refused.reason, Reason::NotEncoding);
    /// ```
    ///
    /// [`NotEncoding`]: crate::Reason::NotEncoding
    /// [`EncodingHeader`]: crate::Reason::EncodingHeader
    /// [`EncodingCut`]: crate::Reason::EncodingCut
    /// [`SpecTableOpen`]: crate::Reason::SpecTableOpen
    /// [`EncodingPageHash`]: crate::Reason::EncodingPageHash
    /// [`EntryOverPage`]: crate::Reason::EntryOverPage
    /// [`FirstKey`]: crate::Reason::FirstKey
    /// [`EncodingOrder`]: crate::Reason::EncodingOrder
    /// [`SpecNumber`]: crate::Reason::SpecNumber
    pub fn check(file: &[u8]) -> Result<CheckedEncoding<'_>, Refusal> {
        library::encoding_check(file)?;
        Ok(CheckedEncoding {
            unchecked: Self::unchecked(file),
        })
    }

    /// Bytes that nobody checked. A search in them makes only the checks of header and parts, and
    /// may miss a key that the file has.
    ///
    /// ```
    /// use dwarnizza::{Encoding, Reason};
    ///
    /// let refused = Encoding::unchecked(b"EN").spec(0).unwrap_err();
    /// assert_eq!(refused.reason, Reason::NotEncoding);
    /// ```
    pub fn unchecked(file: &[u8]) -> UncheckedEncoding<'_> {
        UncheckedEncoding { file }
    }
}

/// What a file says of a content key.
///
/// ```
/// use dwarnizza::{Encoding, Key};
///
/// let file = std::fs::read("../../sample/encoding")?;
/// let key = Key::from_text("6667801fc2955e23a72749749811a86d", 16)?;
/// let entry = Encoding::check(&file)?.find_content(key)?.expect("it is there");
/// assert_eq!((entry.count, entry.encoding_keys.len()), (1, 16));
/// # Ok::<(), Box<dyn std::error::Error>>(())
/// ```
#[derive(Clone, Copy, Debug, PartialEq, Eq)]
pub struct ContentEntry<'a> {
    /// The decoded size.
    pub size: u64,
    /// How many encoding keys it has: one at least.
    pub count: u8,
    /// The encoding keys, one after the other: the part of the file where they stand.
    pub encoding_keys: &'a [u8],
}

impl<'a> ContentEntry<'a> {
    /// The encoding keys one by one.
    ///
    /// ```
    /// use dwarnizza::encoding::ContentEntry;
    ///
    /// let entry = ContentEntry {
    ///     size: 7,
    ///     count: 2,
    ///     encoding_keys: b"onetwo",
    /// };
    /// assert!(entry.keys().eq([b"one", b"two"]));
    /// ```
    pub fn keys(&self) -> ChunksExact<'a, u8> {
        let key_len = self.encoding_keys.len() / usize::from(self.count);
        self.encoding_keys.chunks_exact(key_len)
    }
}

/// What a file says of an encoding key.
///
/// ```
/// use dwarnizza::{Encoding, Key};
///
/// let file = std::fs::read("../../sample/encoding")?;
/// let key = Key::from_text("ae5da97c10327bc86eb33511688654da", 16)?;
/// let entry = Encoding::check(&file)?.find_encoding(key)?.expect("it is there");
/// assert_eq!((entry.size, entry.spec), (134, &b"b:{*=n}"[..]));
/// # Ok::<(), Box<dyn std::error::Error>>(())
/// ```
#[derive(Clone, Copy, Debug, PartialEq, Eq)]
pub struct EncodingEntry<'a> {
    /// The number of the spec that it was encoded by.
    pub spec_number: u32,
    /// The encoded size.
    pub size: u64,
    /// That spec, without its closing zero: the part of the file where it stands.
    pub spec: &'a [u8],
}

/// An encoding file that passed the full check: a search finds exactly the keys that stand in it.
///
/// ```
/// use dwarnizza::{Encoding, Key};
///
/// let file = std::fs::read("../../sample/encoding")?;
/// let encoding = Encoding::check(&file)?;
/// let key = Key::from_text("6667801fc2955e23a72749749811a86d", 16)?;
/// assert!(encoding.find_content(key)?.is_some());
/// # Ok::<(), Box<dyn std::error::Error>>(())
/// ```
#[derive(Clone, Copy, Debug, PartialEq, Eq)]
pub struct CheckedEncoding<'a> {
    unchecked: UncheckedEncoding<'a>,
}

impl<'a> CheckedEncoding<'a> {
    /// The file.
    ///
    /// ```
    /// use dwarnizza::Encoding;
    ///
    /// let file = std::fs::read("../../sample/encoding")?;
    /// assert_eq!(Encoding::check(&file)?.bytes(), file);
    /// # Ok::<(), Box<dyn std::error::Error>>(())
    /// ```
    pub fn bytes(self) -> &'a [u8] {
        self.unchecked.file
    }

    /// Looks a content key up; none where it is absent.
    ///
    /// Refused with [`EncodingKeyLength`](crate::Reason::EncodingKeyLength) where the key has not
    /// as many bytes as the content keys of the file. A key is never cut or filled up.
    ///
    /// ```
    /// use dwarnizza::{Encoding, Key, Reason};
    ///
    /// let file = std::fs::read("../../sample/encoding")?;
    /// let encoding = Encoding::check(&file)?;
    /// let key = Key::from_text("6667801fc2955e23a72749749811a86d", 16)?;
    /// let entry = encoding.find_content(key)?.expect("it is there");
    /// let encoding_key = entry.keys().next().and_then(Key::from_bytes).expect("it has one");
    /// assert_eq!(encoding_key.to_string(), "ae5da97c10327bc86eb33511688654da");
    ///
    /// let refused = encoding.find_content([4, 0x17]).unwrap_err();
    /// assert_eq!(refused.reason, Reason::EncodingKeyLength);
    /// # Ok::<(), Box<dyn std::error::Error>>(())
    /// ```
    pub fn find_content(self, key: impl AsRef<[u8]>) -> Result<Option<ContentEntry<'a>>, Refusal> {
        self.unchecked.find_content(key)
    }

    /// Looks an encoding key up; none where it is absent.
    ///
    /// Refused with [`EncodingKeyLength`](crate::Reason::EncodingKeyLength) where the key has not
    /// as many bytes as the encoding keys of the file. A key is never cut or filled up.
    ///
    /// ```
    /// use dwarnizza::Encoding;
    ///
    /// let file = std::fs::read("../../sample/encoding")?;
    /// assert_eq!(Encoding::check(&file)?.find_encoding([7; 16])?, None);
    /// # Ok::<(), Box<dyn std::error::Error>>(())
    /// ```
    pub fn find_encoding(
        self,
        key: impl AsRef<[u8]>,
    ) -> Result<Option<EncodingEntry<'a>>, Refusal> {
        self.unchecked.find_encoding(key)
    }

    /// The spec with this number, from 0, without its closing zero.
    ///
    /// Refused with [`SpecNumber`](crate::Reason::SpecNumber) where the table has no spec of this
    /// number.
    ///
    /// ```
    /// use dwarnizza::Encoding;
    ///
    /// let file = std::fs::read("../../sample/encoding")?;
    /// assert_eq!(Encoding::check(&file)?.spec(0)?, b"n");
    /// # Ok::<(), Box<dyn std::error::Error>>(())
    /// ```
    pub fn spec(self, number: u32) -> Result<&'a [u8], Refusal> {
        self.unchecked.spec(number)
    }
}

/// An encoding file that nobody checked: a search may miss a key that it has.
///
/// Each call checks header and parts by itself, and is refused, by the first that holds, with
/// [`NotEncoding`], [`EncodingHeader`], [`EncodingCut`], [`SpecTableOpen`].
///
/// ```
/// use dwarnizza::{Encoding, Reason};
///
/// let refused = Encoding::unchecked(b"EN").find_content([5; 16]).unwrap_err();
/// assert_eq!(refused.reason, Reason::NotEncoding);
/// ```
///
/// [`NotEncoding`]: crate::Reason::NotEncoding
/// [`EncodingHeader`]: crate::Reason::EncodingHeader
/// [`EncodingCut`]: crate::Reason::EncodingCut
/// [`SpecTableOpen`]: crate::Reason::SpecTableOpen
#[derive(Clone, Copy, Debug, PartialEq, Eq)]
pub struct UncheckedEncoding<'a> {
    file: &'a [u8],
}

impl<'a> UncheckedEncoding<'a> {
    /// The file.
    ///
    /// ```
    /// assert_eq!(dwarnizza::Encoding::unchecked(b"EN").bytes(), b"EN");
    /// ```
    pub fn bytes(self) -> &'a [u8] {
        self.file
    }

    /// Looks a content key up; none where it is not met.
    ///
    /// The page is the highest-numbered one whose stored first key is not above the sought key, and
    /// its entries are read from the first to the sought one.
    ///
    /// Refused, after header and parts, with [`EncodingKeyLength`], and then with [`EntryOverPage`]
    /// where such an entry is met.
    ///
    /// ```
    /// use dwarnizza::Encoding;
    ///
    /// let file = std::fs::read("../../sample/encoding")?;
    /// assert_eq!(Encoding::unchecked(&file).find_content([7; 16])?, None);
    /// # Ok::<(), Box<dyn std::error::Error>>(())
    /// ```
    ///
    /// [`EncodingKeyLength`]: crate::Reason::EncodingKeyLength
    /// [`EntryOverPage`]: crate::Reason::EntryOverPage
    pub fn find_content(self, key: impl AsRef<[u8]>) -> Result<Option<ContentEntry<'a>>, Refusal> {
        let search = library::encoding_find_content(self.file, key.as_ref())?;
        Ok(search
            .found()
            .map(|[size, count, place, length, ..]| ContentEntry {
                size,
                count: u8::try_from(count).expect("a count has 8 bits"),
                encoding_keys: part(self.file, place, length),
            }))
    }

    /// Looks an encoding key up; none where it is not met.
    ///
    /// It goes through the encoding pages as [`find_content`](Self::find_content) goes through the
    /// content pages, and passes padding over.
    ///
    /// Refused, after header and parts, with [`EncodingKeyLength`], and then with [`SpecNumber`]
    /// where the table has no spec of the number that the found entry names.
    ///
    /// ```
    /// use dwarnizza::Encoding;
    ///
    /// let file = std::fs::read("../../sample/encoding")?;
    /// assert_eq!(Encoding::unchecked(&file).find_encoding([7; 16])?, None);
    /// # Ok::<(), Box<dyn std::error::Error>>(())
    /// ```
    ///
    /// [`EncodingKeyLength`]: crate::Reason::EncodingKeyLength
    /// [`SpecNumber`]: crate::Reason::SpecNumber
    pub fn find_encoding(
        self,
        key: impl AsRef<[u8]>,
    ) -> Result<Option<EncodingEntry<'a>>, Refusal> {
        let search = library::encoding_find_encoding(self.file, key.as_ref())?;
        Ok(search
            .found()
            .map(|[spec_number, size, place, length, ..]| EncodingEntry {
                spec_number: number(spec_number),
                size,
                spec: part(self.file, place, length),
            }))
    }

    /// The spec with this number, from 0, without its closing zero.
    ///
    /// Refused, after header and parts, with [`SpecNumber`](crate::Reason::SpecNumber) where the
    /// table has no spec of this number.
    ///
    /// ```
    /// use dwarnizza::{Encoding, Reason};
    ///
    /// let file = std::fs::read("../../sample/encoding")?;
    /// let refused = Encoding::unchecked(&file).spec(u32::MAX).unwrap_err();
    /// assert_eq!(refused.reason, Reason::SpecNumber);
    /// # Ok::<(), Box<dyn std::error::Error>>(())
    /// ```
    pub fn spec(self, number: u32) -> Result<&'a [u8], Refusal> {
        let [place, length, ..] = library::encoding_spec(self.file, number)?;
        Ok(part(self.file, place, length))
    }
}
