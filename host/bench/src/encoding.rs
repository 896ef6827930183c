//! Encoding files with keys of 16 bytes, pages of 4 KB and one encoding key for each content key.

use std::ops::Range;

use fuzz::export::{
    ANSWERED, ENCODING_CHECK, ENCODING_FIND_CONTENT, ENCODING_FIND_ENCODING, ENCODING_SPEC, Export,
    Given,
};
use second::encoding::{ContentEntry, EncodingEntry, HEADER, Parts, TableParts, paged, write};

use crate::index;
use crate::keys::{Key, KeyOfNumber, Sought, both, by_key};
use crate::measure::mixed;
use crate::table::{Call, Table};

/// How many entries of each kind the files have, and how many bytes their spec tables. The last
/// fill 6,982 content pages and 4,583 encoding pages, as those of the file that source 003 quotes.
const SIZES: [(usize, usize); 3] = [(1000, 1000), (50_000, 10_000), (747_029, 76_025)];

const PAGE_KB: u16 = 4;

/// A file, and where its pages stand in it.
pub struct File {
    pub entries: usize,
    pub bytes: Vec<u8>,
    specs: usize,
    content_pages: Range<usize>,
    encoding_pages: Range<usize>,
}

impl File {
    /// The encoding keys of its content entries are keys of an index of `indexed` entries.
    pub fn new((entries, spec_table_length): (usize, usize), indexed: usize) -> Self {
        let specs = spec_table(spec_table_length);
        let spec_count = specs.iter().filter(|&&byte| byte == 0).count();
        let parts = Parts {
            specs,
            content: table(content_entries(entries, indexed)),
            encoding: table(encoding_entries(entries, spec_count)),
            own_spec: b"b:{22=n,*=z}".to_vec(),
        };
        let header = parts.header();
        let content_pages = HEADER + spec_table_length + header.content.index_len();
        let content_end = content_pages + header.content.pages_len();
        let encoding_pages = content_end + header.encoding.index_len();
        let encoding_end = encoding_pages + header.encoding.pages_len();
        Self {
            entries,
            bytes: write(&parts),
            specs: spec_count,
            content_pages: content_pages..content_end,
            encoding_pages: encoding_pages..encoding_end,
        }
    }

    /// The pages of both kinds, each by itself.
    fn pages(&self) -> Vec<&[u8]> {
        let tables = [&self.content_pages, &self.encoding_pages];
        let pages = tables.map(|pages| self.bytes[pages.clone()].chunks_exact(4096));
        pages.into_iter().flatten().collect()
    }

    /// A call that is given the file alone.
    fn call(&self, export: &'static Export, kind: &'static str) -> Call<'_> {
        Call {
            export,
            kind,
            size: self.entries,
            unit: "entries",
            given: Box::new(|_| Given::new([&self.bytes], [])),
            result: ANSWERED,
            output: 0,
            hashed: Vec::new(),
        }
    }
}

/// The content keys rise evenly, beside the encoding keys.
pub fn content_key(number: usize, entries: usize) -> Key {
    let high = number as u64 * (u64::MAX / entries as u64) + 1;
    both(high, mixed(!number as u64))
}

fn content_entries(entries: usize, indexed: usize) -> impl Iterator<Item = Vec<u8>> {
    (0..entries).map(move |number| {
        let entry = ContentEntry {
            count: 1,
            size: mixed(number as u64) >> 40,
            key: &content_key(number, entries),
            encoding_keys: &index::key(number % indexed, indexed),
        };
        entry.bytes()
    })
}

fn encoding_entries(entries: usize, specs: usize) -> impl Iterator<Item = Vec<u8>> {
    (0..entries).map(move |number| {
        let entry = EncodingEntry {
            key: &index::key(number, entries),
            spec_number: (mixed(number as u64) % specs as u64) as u32,
            size: mixed(number as u64) >> 40,
        };
        entry.bytes()
    })
}

fn table(entries: impl Iterator<Item = Vec<u8>>) -> TableParts {
    TableParts {
        key_size: 16,
        page_kb: PAGE_KB,
        pages: paged(entries, PAGE_KB),
    }
}

/// Specs of block lists that differ in one size, the last as long as the table needs.
fn spec_table(length: usize) -> Vec<u8> {
    let mut table = Vec::new();
    for size in 1.. {
        let spec = format!("b:{{{size}K=n,*=z}}\0");
        if table.len() + 2 * spec.len() > length {
            break;
        }
        table.extend(spec.bytes());
    }
    table.resize(length - 1, b'n');
    table.push(0);
    table
}

/// Prints the lines.
pub fn measure(table: &mut Table) {
    let files = SIZES.map(|sizes| File::new(sizes, sizes.0));
    table.calls(files.iter().map(|file| Call {
        hashed: file.pages(),
        ..file.call(&ENCODING_CHECK, "")
    }));
    lookups(table, &files, &ENCODING_FIND_CONTENT, content_key);
    lookups(table, &files, &ENCODING_FIND_ENCODING, index::key);
    table.calls(files.iter().map(|file| Call {
        size: file.specs,
        unit: "specs",
        given: Box::new(|number| Given::new([&file.bytes], [mixed(number) % file.specs as u64])),
        ..file.call(&ENCODING_SPEC, "")
    }));
}

/// Random keys of a kind, all of them found and then all absent.
fn lookups(table: &mut Table, files: &[File], export: &'static Export, key: KeyOfNumber) {
    for sought in [Sought::Found, Sought::Absent] {
        let keys = files.iter().map(|file| sought.keys(file.entries, key));
        let keys: Vec<_> = keys.collect();
        table.calls(files.iter().zip(&keys).map(|(file, keys)| Call {
            given: by_key(&file.bytes, keys),
            result: sought.result(),
            ..file.call(export, sought.kind())
        }));
    }
}
