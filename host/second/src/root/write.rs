//! Root files from their parts.

use super::layout::{Layout, is_long};
use super::{KEY, NAME_HASH};

/// The start of a file with a magic: that, and the two numbers after it. A long header is filled up
/// with zeros.
#[derive(Clone, Copy, Debug)]
pub struct Header {
    /// The magic.
    pub magic: [u8; 4],
    /// The size of a long header, or a count.
    pub a: u32,
    /// The version of a long header, or a count.
    pub b: u32,
}

/// A block to be written.
#[derive(Clone, Debug)]
pub struct BlockParts {
    /// The locale flags.
    pub locale: u32,
    /// The content flags.
    pub content: u32,
    /// The unknown bytes, if the layout has any.
    pub unknown: [u8; 5],
    /// The records.
    pub records: Vec<Record>,
}

/// A record to be written.
#[derive(Clone, Copy, Debug)]
pub struct Record {
    /// Its delta.
    pub delta: i32,
    /// Its content key.
    pub key: [u8; KEY],
    /// Its name hash, if its block has name hashes.
    pub name_hash: [u8; NAME_HASH],
}

/// The file of these blocks, without a magic where there is no header.
pub fn write(header: Option<Header>, blocks: &[BlockParts]) -> Vec<u8> {
    let layout = Layout::behind(header);
    let mut file = header.map_or(Vec::new(), Header::bytes);
    for block in blocks {
        block.put(&mut file, &layout);
    }
    file
}

impl Header {
    fn bytes(self) -> Vec<u8> {
        let Self { magic, a, b } = self;
        let mut bytes = magic.to_vec();
        bytes.extend(a.to_le_bytes());
        bytes.extend(b.to_le_bytes());
        if is_long(a, b) {
            bytes.resize(a as usize, 0);
        }
        bytes
    }
}

impl BlockParts {
    fn put(&self, file: &mut Vec<u8>, layout: &Layout) {
        file.extend(self.header(layout));
        let records = &self.records;
        file.extend(records.iter().flat_map(|record| record.delta.to_le_bytes()));
        if layout.key_step == KEY {
            file.extend(records.iter().flat_map(|record| record.key));
            if layout.has_name_hashes(self.content) {
                file.extend(records.iter().flat_map(|record| record.name_hash));
            }
        } else {
            for record in records {
                file.extend(record.key);
                file.extend(record.name_hash);
            }
        }
    }

    /// What stands before the deltas.
    fn header(&self, layout: &Layout) -> Vec<u8> {
        let count = u32::try_from(self.records.len()).expect("a block counts its records");
        let mut header = vec![0; layout.block_header];
        for (at, number) in [
            (0, count),
            (layout.content_at, self.content),
            (layout.locale_at, self.locale),
        ] {
            header[at..at + 4].copy_from_slice(&number.to_le_bytes());
        }
        let unknown_at = layout.block_header - layout.unknown;
        header[unknown_at..].copy_from_slice(&self.unknown[..layout.unknown]);
        header
    }
}
