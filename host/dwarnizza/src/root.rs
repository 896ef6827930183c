//! Root files: for each file number (FileDataID) a content key, and for paths both.
//!
//! A file is given as it is taken out of its envelope.
//!
//! ```
//! use dwarnizza::{Key, Root};
//!
//! let file = std::fs::read("../../sample/root-v2")?;
//! let record = Root::check(&file)?.find(417, 0x2, 0).expect("it is there");
//! assert_eq!(Key::from(record.key).to_string(), "6667801fc2955e23a72749749811a86d");
//! # Ok::<(), Box<dyn std::error::Error>>(())
//! ```

use crate::answer::{number, size, unrefused};
use crate::library;
use crate::refusal::Refusal;

/// Where calls on root files begin: [`Root::check`].
///
/// ```
/// use dwarnizza::Root;
///
/// let file = std::fs::read("../../sample/root-v2")?;
/// assert!(Root::check(&file).is_ok());
/// # Ok::<(), Box<dyn std::error::Error>>(())
/// ```
#[derive(Debug)]
pub enum Root {}

impl Root {
    /// The full check of a root file.
    ///
    /// Refused, by the first that holds, with [`RootHeaderCut`] where the file has a magic and
    /// under 12 bytes, with [`RootVersion`], [`RootHeaderSize`], [`RootHeaderCut`] where its header
    /// is long, and then block by block with [`BlockCut`], [`IdRange`].
    ///
    /// ```
    /// use dwarnizza::{Reason, Root};
    ///
    /// let refused = Root::check(b"not a root file").unwrap_err();
    /// assert_eq!((refused.reason, refused.place), (Reason::BlockCut, 0));
    /// ```
    ///
    /// [`RootHeaderCut`]: crate::Reason::RootHeaderCut
    /// [`RootVersion`]: crate::Reason::RootVersion
    /// [`RootHeaderSize`]: crate::Reason::RootHeaderSize
    /// [`BlockCut`]: crate::Reason::BlockCut
    /// [`IdRange`]: crate::Reason::IdRange
    pub fn check(file: &[u8]) -> Result<CheckedRoot<'_>, Refusal> {
        library::root_check(file)?;
        Ok(CheckedRoot { file })
    }
}

/// A root file that passed the full check.
///
/// ```
/// use dwarnizza::Root;
///
/// let file = std::fs::read("../../sample/root-v1")?;
/// let root = Root::check(&file)?;
/// assert!(root.find(417, 0x2, 0).is_some());
/// # Ok::<(), Box<dyn std::error::Error>>(())
/// ```
#[derive(Clone, Copy, Debug, PartialEq, Eq)]
pub struct CheckedRoot<'a> {
    file: &'a [u8],
}

/// The record of a file number.
///
/// ```
/// use dwarnizza::Root;
///
/// let file = std::fs::read("../../sample/root-v1")?;
/// let record = Root::check(&file)?.find(417, 0x2, 0).expect("it is there");
/// assert_eq!(file[record.place..][..16], record.key);
/// # Ok::<(), Box<dyn std::error::Error>>(())
/// ```
#[derive(Clone, Copy, Debug, PartialEq, Eq)]
pub struct Record {
    /// The content key.
    pub key: [u8; 16],
    /// Where the key stands in the root file.
    pub place: usize,
}

/// The record of a path.
///
/// ```
/// use dwarnizza::{Root, name_hash};
///
/// // One block, in a file without a magic, with the id 5.
/// let mut file = [1, 0, 2, 5].map(u32::to_le_bytes).concat();
/// file.extend([7; 16]);
/// file.extend(name_hash(b"horn.ogg")?.to_le_bytes());
///
/// let record = Root::check(&file)?.find_path(b"HORN.OGG", 0x2, 0)?.expect("it is there");
/// assert_eq!(record.id, 5);
/// assert_eq!(file[record.place..][..16], record.key);
/// # Ok::<(), dwarnizza::Refusal>(())
/// ```
#[derive(Clone, Copy, Debug, PartialEq, Eq)]
pub struct PathRecord {
    /// The file number.
    pub id: u32,
    /// The content key.
    pub key: [u8; 16],
    /// Where the key stands in the root file.
    pub place: usize,
}

impl<'a> CheckedRoot<'a> {
    /// The file.
    ///
    /// ```
    /// assert_eq!(dwarnizza::Root::check(b"")?.bytes(), b"");
    /// # Ok::<(), dwarnizza::Refusal>(())
    /// ```
    pub fn bytes(self) -> &'a [u8] {
        self.file
    }

    /// The first record of this id, in file order, in the blocks whose locale flags share a bit
    /// with `locale` and whose content flags share none with `unwanted`; none where it is absent.
    ///
    /// The library checks the whole file once more for each search;
    /// [`find_many`](Self::find_many) does so once for a whole list.
    ///
    /// ```
    /// use dwarnizza::Root;
    ///
    /// // A file of one block, without a magic and content flags, for the locale enUS: the id 5
    /// // has a content key of sevens and a name hash of zeros.
    /// let mut file = [1, 0, 2, 5].map(u32::to_le_bytes).concat();
    /// file.extend([7; 16]);
    /// file.extend([0; 8]);
    ///
    /// let root = Root::check(&file)?;
    /// let record = root.find(5, 0x2, 0).expect("it is there");
    /// assert_eq!((record.key, record.place), ([7; 16], 16));
    /// assert_eq!(root.find(5, 0x4, 0), None);
    /// # Ok::<(), dwarnizza::Refusal>(())
    /// ```
    pub fn find(self, id: u32, locale: u32, unwanted: u64) -> Option<Record> {
        let mut key = [0; 16];
        let search = unrefused(library::root_find(
            self.file, id, locale, unwanted, &mut key,
        ));
        let [place, ..] = search.found()?;
        Some(Record {
            key,
            place: size(place),
        })
    }

    /// The content keys of many ids, each as [`find`](Self::find) finds it, in one pass over the
    /// file; none for an id that is absent. The ids rise, and neighbours may be equal.
    ///
    /// Refused with [`ListFalls`] where an id is below the one before; the place is its number in
    /// the list.
    ///
    /// ```
    /// use dwarnizza::{Reason, Root};
    ///
    /// let file = std::fs::read("../../sample/root-v2")?;
    /// let root = Root::check(&file)?;
    /// let keys = root.find_many(&[0, 417, 417], 0x2, 0)?;
    /// let key = root.find(417, 0x2, 0).map(|record| record.key);
    /// assert_eq!(keys, [None, key, key]);
    ///
    /// let refused = root.find_many(&[417, 418, 9], 0x2, 0).unwrap_err();
    /// assert_eq!((refused.reason, refused.place), (Reason::ListFalls, 2));
    /// # Ok::<(), Box<dyn std::error::Error>>(())
    /// ```
    ///
    /// [`ListFalls`]: crate::Reason::ListFalls
    pub fn find_many(
        self,
        ids: &[u32],
        locale: u32,
        unwanted: u64,
    ) -> Result<Vec<Option<[u8; 16]>>, Refusal> {
        let list: Vec<u8> = ids.iter().flat_map(|id| id.to_be_bytes()).collect();
        let mut output = vec![0; FOUND * ids.len()];
        library::root_find_many(self.file, &list, locale, unwanted, &mut output)?;
        let (answers, _) = output.as_chunks::<FOUND>();
        Ok(answers.iter().map(|&answer| key_found(answer)).collect())
    }

    /// The first record, in file order, whose name hash is that of the path
    /// ([`name_hash`](crate::name_hash)), in the blocks that have name hashes and that
    /// [`find`](Self::find) looks into with these masks; none where it is absent.
    ///
    /// Refused with [`PathLength`] where the path has more than 1,024 bytes.
    ///
    /// ```
    /// use dwarnizza::{Reason, Root, name_hash};
    ///
    /// // A file of one block, without a magic and content flags, for the locale enUS: the id 5
    /// // has a content key of sevens.
    /// let mut file = [1, 0, 2, 5].map(u32::to_le_bytes).concat();
    /// file.extend([7; 16]);
    /// file.extend(name_hash(br"Sound\Horn.ogg")?.to_le_bytes());
    ///
    /// let root = Root::check(&file)?;
    /// let record = root.find_path(b"sound/horn.ogg", 0x2, 0)?.expect("it is there");
    /// assert_eq!((record.id, record.key, record.place), (5, [7; 16], 16));
    /// assert_eq!(root.find_path(b"sound/drum.ogg", 0x2, 0)?, None);
    ///
    /// let refused = root.find_path(&[b'a'; 1025], 0x2, 0).unwrap_err();
    /// assert_eq!(refused.reason, Reason::PathLength);
    /// # Ok::<(), dwarnizza::Refusal>(())
    /// ```
    ///
    /// [`PathLength`]: crate::Reason::PathLength
    pub fn find_path(
        self,
        path: &[u8],
        locale: u32,
        unwanted: u64,
    ) -> Result<Option<PathRecord>, Refusal> {
        let mut key = [0; 16];
        let search = library::root_find_path(self.file, path, locale, unwanted, &mut key)?;
        Ok(search.found().map(|[id, place, ..]| PathRecord {
            id: number(id),
            key,
            place: size(place),
        }))
    }
}

/// How many bytes the library writes for each of many ids.
const FOUND: usize = 20;

/// The content key that follows 1 and three zeros; none where the id is absent.
fn key_found([found, _, _, _, key @ ..]: [u8; FOUND]) -> Option<[u8; 16]> {
    (found == 1).then_some(key)
}
