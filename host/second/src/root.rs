//! Root files, taken out of their envelopes.

mod layout;
mod many;
mod path;
mod write;

pub use layout::{Layout, MAGICS, NO_NAME_HASHES};
pub use many::{find_many, find_many_into};
pub use path::find_path;
pub use write::{BlockParts, Header, Record, write};

use std::iter;

use crate::refusal::{self, Refusal};

/// How many bytes a content key has.
const KEY: usize = 16;

/// How many bytes a name hash has.
const NAME_HASH: usize = 8;

/// The content key of an id.
#[derive(Clone, Copy, Debug, PartialEq, Eq)]
pub struct Found {
    /// The key.
    pub key: [u8; KEY],
    /// Where it stands in the file.
    pub place: usize,
}

/// The full check; refuses with 43, 44, 42, 43, then block by block 40, 41.
pub fn check(file: &[u8]) -> Result<(), Refusal> {
    for block in blocks(file)? {
        for id in block?.ids() {
            id?;
        }
    }
    Ok(())
}

/// The content key of the first record of this id in a block that shares a locale bit and no
/// unwanted bit; refuses as the full check does.
pub fn find(file: &[u8], id: u32, locale: u32, unwanted: u64) -> Result<Option<Found>, Refusal> {
    check(file)?;
    for block in blocks(file)? {
        let block = block?;
        if block.counts(locale, unwanted)
            && let Some(record) = block.ids().position(|found| found == Ok(id))
        {
            return Ok(Some(block.found(record)));
        }
    }
    Ok(None)
}

/// A block that is not cut.
#[derive(Clone, Copy, Debug)]
struct Block<'a> {
    /// Where it stands in the file.
    place: usize,
    bytes: &'a [u8],
    content: u32,
    locale: u32,
    deltas: &'a [[u8; 4]],
    /// Where its first key stands in it, and how far the next is from that.
    keys: usize,
    key_step: usize,
}

/// The blocks of a file; refuses with 43, 44, 42, 43, then at a cut block with 40.
fn blocks(file: &[u8]) -> Result<impl Iterator<Item = Result<Block<'_>, Refusal>>, Refusal> {
    let (mut place, layout) = Layout::of(file)?;
    Ok(iter::from_fn(move || {
        if place == file.len() {
            return None;
        }
        let block = Block::read(file, place, &layout).ok_or(refusal::block_cut(place));
        place += block.map_or(0, |block| block.bytes.len());
        Some(block)
    }))
}

impl<'a> Block<'a> {
    /// The block that starts here; none where it is cut.
    fn read(file: &'a [u8], place: usize, layout: &Layout) -> Option<Self> {
        let rest = &file[place..];
        let header = rest.get(..layout.block_header)?;
        let field = |at: usize| u32::from_le_bytes(array(&header[at..]));
        let count = field(0) as usize;
        let content = field(layout.content_at);
        let name_hashes = if layout.has_name_hashes(content) {
            count
        } else {
            0
        };
        let keys = layout.block_header + count * 4;
        let bytes = rest.get(..keys + count * KEY + name_hashes * NAME_HASH)?;
        Some(Self {
            place,
            bytes,
            content,
            locale: field(layout.locale_at),
            deltas: bytes[layout.block_header..keys].as_chunks().0,
            keys,
            key_step: layout.key_step,
        })
    }

    /// The ids of the block's records; at one outside its range 41.
    fn ids(&self) -> impl Iterator<Item = Result<u32, Refusal>> {
        let place = self.place;
        let mut next = 0;
        self.deltas.iter().map(move |&delta| {
            let id = next + i64::from(i32::from_le_bytes(delta));
            next = id + 1;
            u32::try_from(id).map_err(|_| refusal::id_range(place))
        })
    }

    fn counts(&self, locale: u32, unwanted: u64) -> bool {
        self.locale & locale != 0 && u64::from(self.content) & unwanted == 0
    }

    /// The name hashes of the block's records; none where the block has no name hashes.
    fn name_hashes(&self) -> impl Iterator<Item = [u8; NAME_HASH]> {
        let (first, step) = if self.key_step == KEY {
            (self.deltas.len() * KEY, NAME_HASH)
        } else {
            (KEY, self.key_step)
        };
        let places = (self.keys + first..self.bytes.len()).step_by(step);
        places.map(|at| array(&self.bytes[at..]))
    }

    /// The key of a record.
    fn found(&self, record: usize) -> Found {
        let at = self.keys + record * self.key_step;
        Found {
            key: array(&self.bytes[at..]),
            place: self.place + at,
        }
    }
}

/// The first bytes, as many as the array has.
fn array<const N: usize>(bytes: &[u8]) -> [u8; N] {
    *bytes.first_chunk().expect("there are as many")
}
