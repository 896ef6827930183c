//! The start of a root file, and how its blocks are laid out.

use super::write::Header;
use super::{KEY, NAME_HASH, array};
use crate::refusal::{self, Refusal};

/// What a file with a header starts with: either.
pub const MAGICS: [[u8; 4]; 2] = [*b"MFST", *b"TSFM"];

/// How many bytes a short header has: the magic and two numbers.
const SHORT_HEADER: usize = 12;

/// The least size of a long header that holds all its fields.
const LEAST_LONG_HEADER: u32 = 20;

/// The version that is refused.
const REFUSED_VERSION: u32 = 4;

/// The content flag that drops the name hashes in files with a magic.
pub const NO_NAME_HASHES: u32 = 1 << 28;

/// How the blocks of a file are laid out. All start with the count, and their deltas follow the
/// header.
#[derive(Clone, Copy, Debug)]
pub struct Layout {
    /// How many bytes stand before the deltas.
    pub block_header: usize,
    /// How many of them are unknown; they stand last.
    pub unknown: usize,
    /// Where the content flags stand in a block.
    pub content_at: usize,
    /// Where the locale flags stand.
    pub locale_at: usize,
    /// How far a key is from the next.
    pub key_step: usize,
    /// The content flags of which each drops the name hashes.
    pub no_name_hashes: u32,
}

/// Without a magic: count, content flags, locale flags; each key is followed by its name hash.
const WITHOUT_MAGIC: Layout = Layout {
    block_header: 12,
    unknown: 0,
    content_at: 4,
    locale_at: 8,
    key_step: KEY + NAME_HASH,
    no_name_hashes: 0,
};

/// Behind a short header, or a long one of version 1: count, content flags, locale flags; the name
/// hashes follow all keys.
const VERSION_1: Layout = Layout {
    block_header: 12,
    unknown: 0,
    content_at: 4,
    locale_at: 8,
    key_step: KEY,
    no_name_hashes: NO_NAME_HASHES,
};

/// Behind a long header of version 2 or 3: count, locale flags, content flags, 4 and 1 unknown
/// bytes; the name hashes follow all keys.
const VERSION_2: Layout = Layout {
    block_header: 17,
    unknown: 5,
    content_at: 8,
    locale_at: 4,
    key_step: KEY,
    no_name_hashes: NO_NAME_HASHES,
};

impl Layout {
    /// The layout of the blocks behind a header, or of those in a file without one.
    pub fn behind(header: Option<Header>) -> Self {
        match header {
            None => WITHOUT_MAGIC,
            Some(Header { a, b, .. }) if is_long(a, b) && b > 1 => VERSION_2,
            Some(_) => VERSION_1,
        }
    }

    /// Whether a block with these content flags has name hashes.
    pub fn has_name_hashes(&self, content: u32) -> bool {
        content & self.no_name_hashes == 0
    }

    /// Where the first block of a file stands, and the layout; refuses with 43, 44, 42, 43.
    pub fn of(file: &[u8]) -> Result<(usize, Self), Refusal> {
        if !MAGICS.iter().any(|magic| file.starts_with(magic)) {
            return Ok((0, Self::behind(None)));
        }
        if file.len() < SHORT_HEADER {
            return Err(refusal::ROOT_HEADER_CUT);
        }
        let magic = array(file);
        let a = u32::from_le_bytes(array(&file[4..]));
        let b = u32::from_le_bytes(array(&file[8..]));
        let layout = Self::behind(Some(Header { magic, a, b }));
        if !is_long(a, b) {
            return Ok((SHORT_HEADER, layout));
        }
        if b == REFUSED_VERSION {
            return Err(refusal::ROOT_VERSION);
        }
        if a < LEAST_LONG_HEADER {
            return Err(refusal::ROOT_HEADER_SIZE);
        }
        if file.len() < a as usize {
            return Err(refusal::ROOT_HEADER_CUT);
        }
        Ok((a as usize, layout))
    }
}

/// Whether these numbers after the magic are the size and the version of a long header.
pub fn is_long(a: u32, b: u32) -> bool {
    matches!(a, 16..100) && matches!(b, 1..=4)
}
