//! Encoding files.

use second::encoding::{
    ContentEntry, EncodingEntry, HEADER, Header, PADDING, Parts, TableParts, TableSizes, paged,
    write,
};

use super::keys;
use crate::damage::Place;
use crate::random::Random;

/// Where the fields of a header stand, and how many bytes they have.
const HEADER_FIELDS: [(usize, usize); 10] = [
    (0, 2),
    (2, 1),
    (3, 1),
    (4, 1),
    (5, 2),
    (7, 2),
    (9, 4),
    (13, 4),
    (17, 1),
    (18, 4),
];

/// How many bytes stand before the keys of a content entry: count and decoded size.
const BEFORE_KEYS: usize = 6;

/// How many bytes a page's hash has.
const HASH: usize = 16;

/// The most bytes of a content entry.
const LONGEST_ENTRY: usize = 1000;

/// The sizes of both kinds of keys.
#[derive(Clone, Copy, Debug)]
pub struct KeySizes {
    /// Of content keys.
    pub content: u8,
    /// Of encoding keys.
    pub encoding: u8,
}

impl KeySizes {
    /// Any.
    pub fn any(random: &mut Random) -> Self {
        Self {
            content: keys::length(random),
            encoding: keys::length(random),
        }
    }
}

/// An encoding file and its keys.
#[derive(Clone, Debug)]
pub struct Encoding {
    /// The file.
    pub file: Vec<u8>,
    /// What its header says.
    pub header: Header,
    /// The content keys, one after the other.
    pub content_keys: Vec<u8>,
    /// The encoding keys of its encoding pages, one after the other.
    pub encoding_keys: Vec<u8>,
    /// How many specs it has.
    pub specs: usize,
}

impl Encoding {
    /// A file with keys of these sizes. The first encoding key of a content entry is mostly one of
    /// these, if there are any.
    pub fn new(random: &mut Random, sizes: KeySizes, first_keys: &[u8]) -> Self {
        let (specs, spec_count) = spec_table(random);
        let count = random.pick(&[1, 2, 5, 10, 20, 27, 40, 60]);
        let content_keys = keys::rising(random, sizes.content.into(), count);
        let encoding_keys = keys::rising(random, sizes.encoding.into(), count);
        let content = content_entries(random, sizes, &content_keys, first_keys);
        let encoding = encoding_entries(random, sizes, &encoding_keys, spec_count);
        let length = random.within(0..=12);
        let parts = Parts {
            specs,
            content: table(random, sizes.content, content),
            encoding: table(random, sizes.encoding, encoding),
            own_spec: random.bytes(length),
        };
        Self {
            file: write(&parts),
            header: parts.header(),
            content_keys,
            encoding_keys,
            specs: spec_count,
        }
    }

    /// A field of the header, of an index or of an entry, or the end of the spec table.
    pub fn place(&self, random: &mut Random) -> Place {
        let Header {
            content, encoding, ..
        } = self.header;
        let content_index = HEADER + self.header.spec_size as usize;
        let content_pages = content_index + content.index_len();
        let encoding_index = content_pages + content.pages_len();
        let encoding_pages = encoding_index + encoding.index_len();
        match random.within(0..=11) {
            0 | 1 => {
                let (at, length) = random.pick(&HEADER_FIELDS);
                Place::alone(at, length)
            }
            2 => Place::alone(content_index - 1, 1),
            3 => index_field(random, content_index, content),
            4 => index_field(random, encoding_index, encoding),
            5..=8 => self.content_field(random, content_pages),
            _ => encoding_field(random, encoding_pages, encoding),
        }
    }

    /// A field of a content entry, found by going through entries of a page.
    fn content_field(&self, random: &mut Random, pages: usize) -> Place {
        let Header {
            content, encoding, ..
        } = self.header;
        let page = random.within(0..=content.pages as usize - 1) * content.page_len();
        let mut at = pages + page;
        let mut step = 0;
        for _ in 0..random.within(1..=20) {
            at += step;
            let count = usize::from(self.file[at]);
            step = BEFORE_KEYS + content.key_len() + count * encoding.key_len();
            if count == 0 || at + 2 * step > pages + page + content.page_len() {
                break;
            }
        }
        let (field, length) = random.pick(&[(0, 1), (1, 5), (BEFORE_KEYS, content.key_len())]);
        Place {
            at: at + field,
            length,
            step,
        }
    }
}

/// The pages of a kind, mostly of 1 KB.
fn table(random: &mut Random, key_size: u8, entries: Vec<Vec<u8>>) -> TableParts {
    let page_kb = random.pick(&[1, 1, 1, 1, 1, 1, 1, 2]);
    TableParts {
        key_size,
        page_kb,
        pages: paged(entries, page_kb),
    }
}

/// A first key or a hash in the index of a kind.
fn index_field(random: &mut Random, index: usize, sizes: TableSizes) -> Place {
    let row = random.within(0..=sizes.pages as usize - 1);
    let (field, length) = random.pick(&[(0, sizes.key_len()), (sizes.key_len(), HASH)]);
    Place {
        at: index + row * sizes.index_entry_len() + field,
        length,
        step: sizes.index_entry_len(),
    }
}

/// A field of an encoding entry, or of the tail of a page.
fn encoding_field(random: &mut Random, pages: usize, sizes: TableSizes) -> Place {
    let step = EncodingEntry::length(sizes.key_len());
    let page = random.within(0..=sizes.pages as usize - 1) * sizes.page_len();
    let number = match random.within(0..=1) {
        0 => random.within(0..=3),
        _ => random.within(0..=sizes.page_len() / step),
    };
    let (field, length) = random.pick(&[(0, sizes.key_len()), (sizes.key_len(), 4)]);
    Place {
        at: pages + page + number * step + field,
        length,
        step,
    }
}

/// A table of one to five specs, and how many they are.
fn spec_table(random: &mut Random) -> (Vec<u8>, usize) {
    let count = random.within(1..=5);
    let mut table = Vec::new();
    for _ in 0..count {
        let length = random.within(0..=6);
        let letters = random.bytes(length);
        table.extend(letters.iter().map(|letter| b'a' + letter % 26));
        table.push(0);
    }
    (table, count)
}

/// An entry for each content key, mostly with one encoding key.
fn content_entries(
    random: &mut Random,
    sizes: KeySizes,
    content_keys: &[u8],
    first_keys: &[u8],
) -> Vec<Vec<u8>> {
    let key_length = usize::from(sizes.encoding);
    let most = (LONGEST_ENTRY - BEFORE_KEYS - usize::from(sizes.content)) / key_length;
    let mut entries = Vec::new();
    for key in content_keys.chunks_exact(sizes.content.into()) {
        let count = match random.within(0..=39) {
            0 => random.within(1..=most.min(255)),
            1..=5 => random.within(2..=4),
            _ => 1,
        };
        let mut encoding_keys = random.bytes(count * key_length);
        let known = first_keys.len() / key_length;
        if known > 0 && !random.one_in(8) {
            let first = &first_keys[random.within(0..=known - 1) * key_length..][..key_length];
            encoding_keys[..key_length].copy_from_slice(first);
        }
        let entry = ContentEntry {
            count: count as u8,
            size: random.number(40),
            key,
            encoding_keys: &encoding_keys,
        };
        entries.push(entry.bytes());
    }
    entries
}

/// An entry for each encoding key, with padding between some.
fn encoding_entries(
    random: &mut Random,
    sizes: KeySizes,
    encoding_keys: &[u8],
    specs: usize,
) -> Vec<Vec<u8>> {
    let mut entries = Vec::new();
    for key in encoding_keys.chunks_exact(sizes.encoding.into()) {
        let mut entry = EncodingEntry {
            key,
            spec_number: random.within(0..=specs - 1) as u32,
            size: random.number(40),
        };
        entries.push(entry.bytes());
        if random.one_in(20) {
            entry.spec_number = PADDING;
            entries.push(entry.bytes());
        }
    }
    entries
}
