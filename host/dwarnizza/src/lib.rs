//! Safe calls into Dwarnizza, the proved library that reads and writes CASC/TACT files.
//!
//! A search is sure to find what a file holds only if the file passed its full check. So a check
//! comes first, and what it gives is what is searched: [`Index::check`] gives a [`CheckedIndex`],
//! [`Encoding::check`] a [`CheckedEncoding`], [`Root::check`] a [`CheckedRoot`] and
//! [`Envelope::check`] a [`CheckedEnvelope`]. A [`Build`] of such files leads from a file number to
//! a place in an archive. Bytes that nobody checked are looked into only under names that say so,
//! as [`Index::unchecked`] and [`UncheckedBuild`].
//!
//! What the library refuses comes back as a [`Refusal`]. The words of the C interface
//! (`include/dwarnizza.h`) hold for each call here.
//!
//! ```
//! use dwarnizza::{Build, Encoding, Index, Root};
//!
//! let index = "../../sample/archives/9287799fceb85d07bd333c9ca72c8d0b.index";
//! let files = ["../../sample/root-v2", "../../sample/encoding", index];
//! let [root, encoding, index] = files.map(|name| std::fs::read(name).expect("it can be read"));
//!
//! let build = Build {
//!     root: Root::check(&root)?,
//!     encoding: Encoding::check(&encoding)?,
//!     index: Index::check(&index)?,
//! };
//! // File 417 for the locale enUS, whatever the content flags.
//! let entry = build.resolve(417, 0x2, 0)?.found().expect("it is in this archive");
//! assert_eq!((entry.size, entry.location), (134, 0));
//! # Ok::<(), dwarnizza::Refusal>(())
//! ```
//!
//! What was checked stays as it was: its bytes cannot be changed while it is searched.
//!
//! ```compile_fail
//! let mut file = vec![0; 28];
//! let index = dwarnizza::Index::check(&file)?;
//! file[0] = 1;
//! index.find([5; 16])?;
//! # Ok::<(), dwarnizza::Refusal>(())
//! ```

#![deny(unsafe_code)]

mod answer;
pub mod chain;
pub mod encoding;
pub mod envelope;
mod file_number;
pub mod index;
mod key;
#[expect(unsafe_code, reason = "the only module that calls C")]
mod library;
mod md5;
mod name_hash;
mod refusal;
pub mod root;
pub mod worklist;

pub use chain::{Build, UncheckedBuild};
pub use encoding::{CheckedEncoding, Encoding, UncheckedEncoding};
pub use envelope::{CheckedEnvelope, Envelope};
pub use file_number::{NotFileNumber, NumberFault, file_number};
pub use index::{CheckedIndex, Index, UncheckedIndex};
pub use key::Key;
pub use md5::{Md5, md5};
pub use name_hash::name_hash;
pub use refusal::{Link, Reason, Refusal, Subject};
pub use root::{CheckedRoot, Root};
pub use worklist::Worklist;
