//! The first 22 bytes of an encoding file.

use super::HASH;
use crate::number::big_endian;
use crate::refusal::{self, Refusal};

/// How many bytes a header has.
pub const HEADER: usize = 22;

const MAGIC: [u8; 2] = *b"EN";
const VERSION: u8 = 1;
const FLAGS: u8 = 0;

/// What a header says.
#[derive(Clone, Copy, Debug, PartialEq, Eq)]
pub struct Header {
    /// The content index and pages.
    pub content: TableSizes,
    /// The encoding index and pages.
    pub encoding: TableSizes,
    /// How many bytes the spec table has.
    pub spec_size: u32,
}

/// What a header says of the pages of one kind.
#[derive(Clone, Copy, Debug, PartialEq, Eq)]
pub struct TableSizes {
    /// How many bytes a key has: 1 to 16.
    pub key_size: u8,
    /// How many KB a page has.
    pub page_kb: u16,
    /// How many pages there are.
    pub pages: u32,
}

impl Header {
    /// Reads the header of a file, and gives what stands after it too; refuses with 30, 31.
    pub fn read(file: &[u8]) -> Result<(Self, &[u8]), Refusal> {
        let (header, rest) = file
            .split_first_chunk::<HEADER>()
            .filter(|(header, _)| header.starts_with(&MAGIC))
            .ok_or(refusal::NOT_AN_ENCODING_FILE)?;
        let table = |key_size: usize, page_kb: usize, pages: usize| TableSizes {
            key_size: header[key_size],
            page_kb: big_endian(&header[page_kb..][..2]) as u16,
            pages: big_endian(&header[pages..][..4]) as u32,
        };
        let said = Self {
            content: table(3, 5, 9),
            encoding: table(4, 7, 13),
            spec_size: big_endian(&header[18..22]) as u32,
        };
        if header[2] != VERSION || header[17] != FLAGS || !said.allowed() {
            return Err(refusal::ENCODING_HEADER);
        }
        Ok((said, rest))
    }

    /// The header's bytes.
    pub fn bytes(&self) -> Vec<u8> {
        let Self {
            content,
            encoding,
            spec_size,
        } = self;
        let mut header = MAGIC.to_vec();
        header.extend([VERSION, content.key_size, encoding.key_size]);
        header.extend(content.page_kb.to_be_bytes());
        header.extend(encoding.page_kb.to_be_bytes());
        header.extend(content.pages.to_be_bytes());
        header.extend(encoding.pages.to_be_bytes());
        header.push(FLAGS);
        header.extend(spec_size.to_be_bytes());
        header
    }

    fn allowed(&self) -> bool {
        self.content.allowed() && self.encoding.allowed() && self.spec_size > 0
    }
}

impl TableSizes {
    fn allowed(self) -> bool {
        matches!(self.key_size, 1..=16) && self.page_kb > 0 && self.pages > 0
    }

    /// How many bytes a key has.
    pub fn key_len(self) -> usize {
        self.key_size.into()
    }

    /// How many bytes a page has.
    pub fn page_len(self) -> usize {
        usize::from(self.page_kb) * 1024
    }

    /// How many bytes an entry of the index has: first key and page hash.
    pub fn index_entry_len(self) -> usize {
        self.key_len() + HASH
    }

    /// How many bytes the index has.
    pub fn index_len(self) -> usize {
        self.index_entry_len() * self.pages as usize
    }

    /// How many bytes the pages have.
    pub fn pages_len(self) -> usize {
        self.page_len() * self.pages as usize
    }
}
