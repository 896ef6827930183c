//! The chain: from a file number (FileDataID) to the encoded size and the location of the file.
//!
//! It has three links. The root file tells the content key of the file number, the encoding file
//! the encoding keys of that, and an archive index the size and the location of the first of them.
//!
//! ```
//! use dwarnizza::{Link, UncheckedBuild};
//!
//! let [root, encoding] = ["root-v1", "encoding"].map(|name| format!("../../sample/{name}"));
//! let files = UncheckedBuild {
//!     root: &std::fs::read(root)?,
//!     encoding: &std::fs::read(encoding)?,
//!     index: b"no index",
//! };
//! let refused = files.resolve(417, 0x2, 0).unwrap_err();
//! assert_eq!(refused.link, Some(Link::Index));
//! # Ok::<(), Box<dyn std::error::Error>>(())
//! ```

use crate::answer::{Search, link, number};
use crate::encoding::CheckedEncoding;
use crate::index::{CheckedIndex, Entry};
use crate::library;
use crate::refusal::{Link, Refusal};
use crate::root::CheckedRoot;

/// The files that the chain goes through, each of which passed its full check.
///
/// ```
/// use dwarnizza::{Build, Encoding, Index, Root};
///
/// let index = "../../sample/archives/9287799fceb85d07bd333c9ca72c8d0b.index";
/// let (root, index) = (std::fs::read("../../sample/root-v1")?, std::fs::read(index)?);
/// let encoding = std::fs::read("../../sample/encoding")?;
/// let build = Build {
///     root: Root::check(&root)?,
///     encoding: Encoding::check(&encoding)?,
///     index: Index::check(&index)?,
/// };
/// assert_eq!(build.resolve(417, 0x2, 0)?.found().map(|entry| entry.size), Some(134));
/// # Ok::<(), Box<dyn std::error::Error>>(())
/// ```
#[derive(Clone, Copy, Debug)]
pub struct Build<'a> {
    /// The root file.
    pub root: CheckedRoot<'a>,
    /// The encoding file.
    pub encoding: CheckedEncoding<'a>,
    /// The index of one archive.
    pub index: CheckedIndex<'a>,
}

impl Build<'_> {
    /// Follows a file number: [`CheckedRoot::find`] with these masks,
    /// [`CheckedEncoding::find_content`] with the content key, and [`CheckedIndex::find`] with the
    /// first encoding key. The first link that has no entry ends the chain.
    ///
    /// A build has an index for each archive. A file that is absent at [`Link::Index`] may be in
    /// another; with many of them, call the three functions one by one.
    ///
    /// Refused with [`EncodingKeyLength`] at [`Link::Encoding`] where the content keys of the
    /// encoding file have not 16 bytes, and with [`IndexKeyLength`] at [`Link::Index`] where its
    /// encoding keys have not as many bytes as the keys of the index. A key is never cut or filled
    /// up.
    ///
    /// ```
    /// use dwarnizza::chain::Resolved;
    /// use dwarnizza::{Build, Encoding, Index, Link, Root};
    ///
    /// let index = "../../sample/archives/9287799fceb85d07bd333c9ca72c8d0b.index";
    /// let (root, index) = (std::fs::read("../../sample/root-v1")?, std::fs::read(index)?);
    /// let encoding = std::fs::read("../../sample/encoding")?;
    /// let build = Build {
    ///     root: Root::check(&root)?,
    ///     encoding: Encoding::check(&encoding)?,
    ///     index: Index::check(&index)?,
    /// };
    /// // 9001 is in the root file and not in the encoding file.
    /// let absent = Resolved::Absent { link: Link::Encoding, compared: 0 };
    /// assert_eq!(build.resolve(9001, 0x2, 0)?, absent);
    /// # Ok::<(), Box<dyn std::error::Error>>(())
    /// ```
    ///
    /// [`EncodingKeyLength`]: crate::Reason::EncodingKeyLength
    /// [`IndexKeyLength`]: crate::Reason::IndexKeyLength
    pub fn resolve(&self, id: u32, locale: u32, unwanted: u64) -> Result<Resolved, Refusal> {
        let build = UncheckedBuild {
            root: self.root.bytes(),
            encoding: self.encoding.bytes(),
            index: self.index.bytes(),
        };
        build.resolve(id, locale, unwanted)
    }
}

/// Files that nobody checked. In such files a search may miss what they hold.
///
/// ```
/// use dwarnizza::{Reason, UncheckedBuild};
///
/// let files = UncheckedBuild {
///     root: b"not a root file",
///     encoding: b"",
///     index: b"",
/// };
/// assert_eq!(files.resolve(417, 0x2, 0).unwrap_err().reason, Reason::BlockCut);
/// ```
#[derive(Clone, Copy, Debug)]
pub struct UncheckedBuild<'a> {
    /// The root file.
    pub root: &'a [u8],
    /// The encoding file.
    pub encoding: &'a [u8],
    /// The index of one archive.
    pub index: &'a [u8],
}

impl UncheckedBuild<'_> {
    /// Follows a file number as [`Build::resolve`] does. The first link that has no entry or
    /// refuses ends the chain, and the files of later links are not read.
    ///
    /// Refused, with the link, as [`Root::check`], [`UncheckedEncoding::find_content`] and
    /// [`UncheckedIndex::find`] refuse.
    ///
    /// ```
    /// use dwarnizza::chain::Resolved;
    /// use dwarnizza::{Link, Reason, UncheckedBuild};
    ///
    /// // A root file without blocks: nothing else is read.
    /// let files = UncheckedBuild {
    ///     root: b"",
    ///     encoding: b"not an encoding file",
    ///     index: b"not an index",
    /// };
    /// let absent = Resolved::Absent { link: Link::Root, compared: 0 };
    /// assert_eq!(files.resolve(5, 0x2, 0), Ok(absent));
    ///
    /// // With the id 5 for the locale enUS.
    /// let mut root = [1, 0, 2, 5].map(u32::to_le_bytes).concat();
    /// root.extend([7; 16 + 8]);
    /// let files = UncheckedBuild { root: &root, ..files };
    /// let refused = files.resolve(5, 0x2, 0).unwrap_err();
    /// assert_eq!(refused.reason, Reason::NotEncoding);
    /// assert_eq!(refused.link, Some(Link::Encoding));
    /// ```
    ///
    /// [`Root::check`]: crate::Root::check
    /// [`UncheckedEncoding::find_content`]: crate::UncheckedEncoding::find_content
    /// [`UncheckedIndex::find`]: crate::UncheckedIndex::find
    pub fn resolve(&self, id: u32, locale: u32, unwanted: u64) -> Result<Resolved, Refusal> {
        let files = [self.root, self.encoding, self.index];
        Ok(match library::resolve(files, id, locale, unwanted)? {
            Search::Found(words) => Resolved::Found(Entry::from_words(words)),
            Search::Absent([_, _, absent, _, compared, ..]) => Resolved::Absent {
                link: link(absent).expect("a link is absent"),
                compared: number(compared),
            },
        })
    }
}

/// What the chain gives.
///
/// ```
/// use dwarnizza::Link;
/// use dwarnizza::chain::Resolved;
///
/// let absent = Resolved::Absent { link: Link::Root, compared: 0 };
/// assert_eq!(absent.found(), None);
/// ```
#[derive(Clone, Copy, Debug, PartialEq, Eq)]
pub enum Resolved {
    /// The file is in the archive: its entry in the index.
    Found(Entry),
    /// It is not.
    Absent {
        /// The link that has no entry for it.
        link: Link,
        /// How many stored keys of the index were compared: none before that link.
        compared: u32,
    },
}

impl Resolved {
    /// The entry of the file, where it was found.
    ///
    /// ```
    /// use dwarnizza::UncheckedBuild;
    ///
    /// let files = UncheckedBuild { root: b"", encoding: b"", index: b"" };
    /// assert_eq!(files.resolve(5, 0x2, 0)?.found(), None);
    /// # Ok::<(), dwarnizza::Refusal>(())
    /// ```
    pub fn found(self) -> Option<Entry> {
        match self {
            Resolved::Found(entry) => Some(entry),
            Resolved::Absent { .. } => None,
        }
    }
}
