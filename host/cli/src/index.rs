//! `dwarnizza index`: archive indexes.

mod archives;
pub mod check;
pub mod diff;
pub mod find;
pub mod info;
pub mod list;
mod names;
pub mod search;
pub mod write;

use std::ffi::{OsStr, OsString};

use dwarnizza::index::{IndexEntry, Settings, Summary};
use dwarnizza::{CheckedIndex, Index, Refusal, UncheckedIndex};

use crate::input::read_index;
use crate::name::hex;
use crate::output::{Field, Value};
use crate::status::Failure;
use crate::words;

/// An index that was read.
pub struct IndexFile {
    pub name: OsString,
    bytes: Vec<u8>,
}

impl IndexFile {
    pub fn read(name: &OsStr) -> Result<Self, Failure> {
        Ok(Self {
            name: name.to_owned(),
            bytes: read_index(name)?,
        })
    }

    /// The index, after its full check.
    pub fn check(&self) -> Result<CheckedIndex<'_>, Failure> {
        Index::check(&self.bytes).map_err(|refusal| self.refused(refusal))
    }

    /// The index as it is.
    pub fn unchecked(&self) -> UncheckedIndex<'_> {
        Index::unchecked(&self.bytes)
    }

    /// The library refused it.
    pub fn refused(&self, refusal: Refusal) -> Failure {
        words::index(&self.name, refusal, &self.bytes)
    }
}

/// The fields that tell what an index says of itself.
fn summary_fields(summary: Summary) -> [Field; 5] {
    let Settings {
        version,
        offset_width,
        key_length,
    } = summary.settings;
    [
        ("version", version.into()),
        ("W", offset_width.into()),
        ("K", key_length.into()),
        ("entries", summary.entries.into()),
        ("pages", summary.pages.into()),
    ]
}

/// The fields of an entry.
fn entry_fields(settings: Settings, entry: &IndexEntry<'_>) -> [Field; 4] {
    [
        ("key", hex(entry.key).into()),
        ("size", entry.size.into()),
        ("archive", archive(settings, entry.archive)),
        ("offset", entry.offset.into()),
    ]
}

/// An archive number, where locations have one.
fn archive(settings: Settings, archive: u32) -> Value {
    settings.has_archives().then_some(archive).into()
}
