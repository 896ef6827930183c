//! Encoding files, taken out of their envelopes.

mod check;
mod entry;
mod header;
mod lookup;
mod write;

pub use check::check;
pub use entry::{ContentEntry, EncodingEntry, PADDING};
pub use header::{HEADER, Header, TableSizes};
pub use lookup::{find_content, find_encoding, plain_reading, spec};
pub use write::{Parts, TableParts, paged, write};

use crate::refusal::{self, Refusal};
use entry::{OverPageEnd, content_entries, encoding_entries};

/// How many bytes a page hash has, which is a whole MD5.
const HASH: usize = 16;

/// What closes a spec.
const CLOSING: u8 = 0;

/// The parts of a file that passes 30 to 33; what stands in them is as it is.
#[derive(Clone, Copy, Debug)]
struct Encoding<'a> {
    /// The spec table, whose last byte closes a spec.
    specs: &'a [u8],
    content: Table<'a>,
    encoding: Table<'a>,
}

/// The index and the pages of one kind.
#[derive(Clone, Copy, Debug)]
struct Table<'a> {
    sizes: TableSizes,
    index: &'a [u8],
    pages: &'a [u8],
}

/// A page, and what the index says of it.
#[derive(Clone, Copy, Debug)]
struct Page<'a> {
    number: usize,
    first_key: &'a [u8],
    hash: &'a [u8],
    bytes: &'a [u8],
}

impl<'a> Encoding<'a> {
    /// Takes a file apart; refuses with 30 to 33.
    fn open(file: &'a [u8]) -> Result<Self, Refusal> {
        let (header, mut rest) = Header::read(file)?;
        let specs = take(&mut rest, header.spec_size as usize)?;
        let content = Table::take(&mut rest, header.content)?;
        let encoding = Table::take(&mut rest, header.encoding)?;
        if specs.last() != Some(&CLOSING) {
            return Err(refusal::LAST_SPEC);
        }
        Ok(Self {
            specs,
            content,
            encoding,
        })
    }

    /// The entries of a content page.
    fn content_entries(
        &self,
        page: Page<'a>,
    ) -> impl Iterator<Item = Result<ContentEntry<'a>, OverPageEnd>> {
        let encoding_key_len = self.encoding.sizes.key_len();
        content_entries(page.bytes, self.content.sizes.key_len(), encoding_key_len)
    }

    /// The entries of an encoding page.
    fn encoding_entries(&self, page: Page<'a>) -> impl Iterator<Item = EncodingEntry<'a>> {
        encoding_entries(page.bytes, self.encoding.sizes.key_len())
    }

    /// The specs in the order of their numbers, without what closes them.
    fn specs(&self) -> impl Iterator<Item = &'a [u8]> {
        let (_, before_last) = self.specs.split_last().expect("it closes a spec");
        before_last.split(|&byte| byte == CLOSING)
    }

    /// How many specs there are.
    fn spec_count(&self) -> usize {
        self.specs.iter().filter(|&&byte| byte == CLOSING).count()
    }

    /// The spec of this number; refuses with 38.
    fn spec(&self, number: u32) -> Result<&'a [u8], Refusal> {
        self.specs()
            .nth(number as usize)
            .ok_or(refusal::SPEC_NUMBER)
    }
}

impl<'a> Table<'a> {
    fn take(rest: &mut &'a [u8], sizes: TableSizes) -> Result<Self, Refusal> {
        Ok(Self {
            sizes,
            index: take(rest, sizes.index_len())?,
            pages: take(rest, sizes.pages_len())?,
        })
    }

    fn pages(&self) -> impl DoubleEndedIterator<Item = Page<'a>> {
        let key_len = self.sizes.key_len();
        self.index
            .chunks_exact(self.sizes.index_entry_len())
            .zip(self.pages.chunks_exact(self.sizes.page_len()))
            .enumerate()
            .map(move |(number, (entry, bytes))| Page {
                number,
                first_key: &entry[..key_len],
                hash: &entry[key_len..],
                bytes,
            })
    }

    /// The page for a key: the highest-numbered one whose stored first key is not above it; refuses
    /// with 39.
    fn page_for(&self, key: &[u8]) -> Result<Option<Page<'a>>, Refusal> {
        if key.len() != self.sizes.key_len() {
            return Err(refusal::ENCODING_KEY_LENGTH);
        }
        Ok(self.pages().rev().find(|page| page.first_key <= key))
    }
}

/// The next part of a file, of this length; refuses with 32.
fn take<'a>(rest: &mut &'a [u8], length: usize) -> Result<&'a [u8], Refusal> {
    let (part, after) = rest
        .split_at_checked(length)
        .ok_or(refusal::PARTS_PAST_END)?;
    *rest = after;
    Ok(part)
}
