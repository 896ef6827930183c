//! Encoding files.

mod fault;

pub use fault::{Fault, PageFault};

use std::ops::Range;

use second::encoding::{
    ContentEntry, EncodingEntry, HEADER, Header, PADDING, Parts, TableParts, TableSizes, write,
};
use second::md5;

use super::index::rising_keys;
use crate::random::Random;

/// How many bytes of a content entry stand before its key.
const BEFORE_KEY: usize = 6;

/// The content pages or the encoding pages.
#[derive(Clone, Copy, Debug, PartialEq, Eq, PartialOrd, Ord)]
pub enum Kind {
    /// Those of content entries.
    Content,
    /// Those of encoding entries.
    Encoding,
}

/// Both, in the order of the file.
pub const BOTH: [Kind; 2] = [Kind::Content, Kind::Encoding];

/// Where an entry stands.
#[derive(Clone, Copy, Debug)]
pub struct Entry {
    /// Its page.
    pub page: usize,
    /// Where it starts in the page.
    pub at: usize,
    /// How many bytes it has.
    pub length: usize,
}

/// A file with the layout that it was made by.
#[derive(Clone, Debug)]
pub struct EncodingFile {
    /// What its header says.
    pub header: Header,
    /// How many specs there are.
    pub specs: u32,
    content: Vec<Entry>,
    encoding: Vec<Entry>,
    /// The file.
    pub bytes: Vec<u8>,
}

impl EncodingFile {
    /// A good file of any layout, mostly of few pages.
    pub fn random(random: &mut Random) -> Self {
        let key_lens = [1 + random.up_to(15), 1 + random.up_to(15)];
        Self::with_key_lens(random, key_lens)
    }

    /// A good file with content keys and encoding keys of these lengths.
    pub fn with_key_lens(random: &mut Random, key_lens: [usize; 2]) -> Self {
        let specs = 2 + random.up_to(4) as u32;
        let (content, content_entries) = content_table(random, key_lens);
        let (encoding, encoding_entries) = encoding_table(random, key_lens[1], specs);
        let own = random.up_to(60);
        let parts = Parts {
            specs: spec_table(random, specs),
            content,
            encoding,
            own_spec: random.bytes(own),
        };
        Self {
            header: parts.header(),
            specs,
            content: content_entries,
            encoding: encoding_entries,
            bytes: write(&parts),
        }
    }

    /// The sizes of the pages of a kind.
    pub fn sizes(&self, kind: Kind) -> TableSizes {
        match kind {
            Kind::Content => self.header.content,
            Kind::Encoding => self.header.encoding,
        }
    }

    /// The entries of a kind, in order.
    pub fn entries(&self, kind: Kind) -> &[Entry] {
        match kind {
            Kind::Content => &self.content,
            Kind::Encoding => &self.encoding,
        }
    }

    /// The numbers of a page's entries.
    pub fn entries_on(&self, kind: Kind, page: usize) -> Range<usize> {
        let entries = self.entries(kind);
        entries.partition_point(|entry| entry.page < page)
            ..entries.partition_point(|entry| entry.page <= page)
    }

    /// How many pages of a kind there are.
    pub fn pages(&self, kind: Kind) -> usize {
        self.sizes(kind).pages as usize
    }

    /// The pages of both kinds, by kind and number.
    pub fn all_pages(&self) -> Vec<(Kind, usize)> {
        let pages = |kind| (0..self.pages(kind)).map(move |page| (kind, page));
        BOTH.into_iter().flat_map(pages).collect()
    }

    /// Where the specs stand.
    pub fn spec_table(&self) -> Range<usize> {
        HEADER..HEADER + self.header.spec_size as usize
    }

    /// Where the index of a kind starts.
    fn index(&self, kind: Kind) -> usize {
        match kind {
            Kind::Content => self.spec_table().end,
            Kind::Encoding => self.page_bytes(Kind::Content).end,
        }
    }

    /// All pages of a kind.
    pub fn page_bytes(&self, kind: Kind) -> Range<usize> {
        let start = self.index(kind) + self.sizes(kind).index_len();
        start..start + self.sizes(kind).pages_len()
    }

    /// Where a page stands.
    pub fn page(&self, kind: Kind, page: usize) -> Range<usize> {
        let length = self.sizes(kind).page_len();
        let start = self.page_bytes(kind).start + page * length;
        start..start + length
    }

    /// Where the stored first key of a page stands.
    pub fn first_key(&self, kind: Kind, page: usize) -> Range<usize> {
        let start = self.index(kind) + page * self.sizes(kind).index_entry_len();
        start..start + self.sizes(kind).key_len()
    }

    /// Where the stored hash of a page stands.
    pub fn hash(&self, kind: Kind, page: usize) -> Range<usize> {
        let start = self.first_key(kind, page).end;
        start..start + 16
    }

    /// Where an entry stands.
    pub fn entry(&self, kind: Kind, number: usize) -> Range<usize> {
        let Entry { page, at, length } = self.entries(kind)[number];
        let start = self.page(kind, page).start + at;
        start..start + length
    }

    /// Where the key of an entry stands.
    pub fn key(&self, kind: Kind, number: usize) -> Range<usize> {
        let start = self.entry(kind, number).start
            + match kind {
                Kind::Content => BEFORE_KEY,
                Kind::Encoding => 0,
            };
        start..start + self.sizes(kind).key_len()
    }

    /// Where the spec number of an encoding entry stands.
    pub fn spec_number(&self, number: usize) -> Range<usize> {
        let start = self.key(Kind::Encoding, number).end;
        start..start + 4
    }

    /// The end of the encoding pages, before the file's own spec.
    pub fn parts_end(&self) -> usize {
        self.page_bytes(Kind::Encoding).end
    }

    /// Stores the hash of a page.
    pub fn fix_hash(&mut self, kind: Kind, page: usize) {
        let hash = md5::digest(&self.bytes[self.page(kind, page)]);
        let stored = self.hash(kind, page);
        self.bytes[stored].copy_from_slice(&hash.expect("a page is below the limit"));
    }

    /// Stores the hashes of all pages.
    pub fn fix_hashes(&mut self) {
        for (kind, page) in self.all_pages() {
            self.fix_hash(kind, page);
        }
    }

    /// Stores the key of the page's first entry.
    pub fn fix_first_key(&mut self, kind: Kind, page: usize) {
        let first = self.key(kind, self.entries_on(kind, page).start);
        let stored = self.first_key(kind, page);
        self.bytes.copy_within(first, stored.start);
    }
}

/// A table of this number of specs.
fn spec_table(random: &mut Random, specs: u32) -> Vec<u8> {
    let mut table = Vec::new();
    for _ in 0..specs {
        let length = random.up_to(6);
        table.extend(random.bytes(length).iter().map(|byte| byte | 1));
        table.push(0);
    }
    table
}

/// Content pages and their entries: now and then a page is full to its last byte, and what stands
/// behind a closing zero is noise.
fn content_table(random: &mut Random, key_lens: [usize; 2]) -> (TableParts, Vec<Entry>) {
    let [key_len, encoding_key_len] = key_lens;
    let most_keys = [1, 3, 8][random.up_to(2)];
    let noise = random.up_to(1) == 0;
    let entry = |random: &mut Random, key: &[u8], left: usize| {
        let for_keys = left.saturating_sub(BEFORE_KEY + key_len);
        let filling = for_keys / encoding_key_len;
        let fills = for_keys.is_multiple_of(encoding_key_len) && matches!(filling, 1..=255);
        let count = match fills && random.up_to(2) == 0 {
            true => filling,
            false => 1 + random.up_to(most_keys - 1),
        };
        ContentEntry {
            count: count as u8,
            size: random.word() >> 24,
            key,
            encoding_keys: &random.bytes(count * encoding_key_len),
        }
        .bytes()
    };
    let close = |random: &mut Random, page: &mut Vec<u8>, left: usize| {
        if noise && left > 0 {
            page.push(0);
            page.extend(random.bytes(left - 1));
        }
    };
    table(random, key_len, |_| Vec::new(), entry, close)
}

/// Encoding pages and their entries: padding of both forms stands between and behind them, and the
/// tail of a page is noise.
fn encoding_table(random: &mut Random, key_len: usize, specs: u32) -> (TableParts, Vec<Entry>) {
    let padding_in = [1, 3, 20][random.up_to(2)];
    let padding = |random: &mut Random| match random.up_to(padding_in) {
        0 => padding(random, key_len),
        _ => Vec::new(),
    };
    let entry = |random: &mut Random, key: &[u8], _: usize| {
        // With number 0 the key of zeros would be padding.
        let zero_key = key.iter().all(|&byte| byte == 0);
        let number = match zero_key {
            true => 1 + random.up_to(specs as usize - 2),
            false => random.up_to(specs as usize - 1),
        };
        EncodingEntry {
            key,
            spec_number: number as u32,
            size: random.word() >> 24,
        }
        .bytes()
    };
    let close = |random: &mut Random, page: &mut Vec<u8>, left: usize| {
        let length = EncodingEntry::length(key_len);
        for _ in 0..left / length {
            page.extend(self::padding(random, key_len));
        }
        page.extend(random.bytes(left % length));
    };
    table(random, key_len, padding, entry, close)
}

/// An encoding entry that is padding.
fn padding(random: &mut Random, key_len: usize) -> Vec<u8> {
    let (key, spec_number) = match random.up_to(1) {
        0 => (vec![0; key_len], 0),
        _ => (random.bytes(key_len), PADDING),
    };
    EncodingEntry {
        key: &key,
        spec_number,
        size: random.word() >> 24,
    }
    .bytes()
}

/// Pages of entries with rising keys, by what stands before an entry, by the entry of a key where
/// a number of bytes of the page are left, and by what closes a page.
fn table(
    random: &mut Random,
    key_len: usize,
    before: impl Fn(&mut Random) -> Vec<u8>,
    entry: impl Fn(&mut Random, &[u8], usize) -> Vec<u8>,
    close: impl Fn(&mut Random, &mut Vec<u8>, usize),
) -> (TableParts, Vec<Entry>) {
    let page_kb = [1, 1, 1, 1, 2, 3][random.up_to(5)];
    let full = usize::MAX;
    let (most_on_page, most) =
        [(1, 4), (3, 9), (full, 6), (full, 60), (full, 200)][random.up_to(4)];
    let count = 1 + random.up_to(most);
    let mut filling = Filling::new(usize::from(page_kb) * 1024, most_on_page);
    for key in rising_keys(random, key_len, count) {
        let before = before(random);
        let room = filling.left().saturating_sub(before.len());
        let bytes = entry(random, &key, room);
        if filling.is_full_for(before.len() + bytes.len()) {
            let left = filling.left();
            close(random, filling.page(), left);
            filling.turn_page();
        }
        filling.add(&before, &bytes);
    }
    let left = filling.left();
    close(random, filling.page(), left);
    let parts = TableParts {
        key_size: key_len as u8,
        page_kb,
        pages: filling.pages,
    };
    (parts, filling.entries)
}

/// Pages that are filled one after the other.
struct Filling {
    page_len: usize,
    most_on_page: usize,
    pages: Vec<Vec<u8>>,
    entries: Vec<Entry>,
    /// How many entries stand on the last page.
    on_page: usize,
}

impl Filling {
    fn new(page_len: usize, most_on_page: usize) -> Self {
        Self {
            page_len,
            most_on_page,
            pages: vec![Vec::new()],
            entries: Vec::new(),
            on_page: 0,
        }
    }

    /// The last page.
    fn page(&mut self) -> &mut Vec<u8> {
        self.pages.last_mut().expect("there is one")
    }

    /// How many bytes of it are left.
    fn left(&mut self) -> usize {
        self.page_len - self.page().len()
    }

    fn is_full_for(&mut self, length: usize) -> bool {
        self.on_page == self.most_on_page || length > self.left()
    }

    fn turn_page(&mut self) {
        self.pages.push(Vec::new());
        self.on_page = 0;
    }

    /// Adds an entry, after what stands before it.
    fn add(&mut self, before: &[u8], bytes: &[u8]) {
        self.page().extend(before);
        let entry = Entry {
            page: self.pages.len() - 1,
            at: self.page().len(),
            length: bytes.len(),
        };
        self.entries.push(entry);
        self.page().extend(bytes);
        self.on_page += 1;
    }
}
