//! Builds: a root file, an encoding file and an index that fit each other.

use std::collections::BTreeMap;

use second::encoding::{ContentEntry, EncodingEntry, Parts, TableParts, paged, write};
use second::index::Settings;
use second::root::{BlockParts, Record};

use super::encoding::{EncodingFile, Kind};
use super::index::IndexFile;
use super::root::RootFile;
use crate::random::Random;

/// The bytes of root file, encoding file and index.
pub type Files = [Vec<u8>; 3];

/// Bytes by key.
pub type ByKey = BTreeMap<Vec<u8>, Vec<u8>>;

/// A block of a root file: ids, each with its content key.
pub fn root_block(locale: u32, content: u32, files: &[(u32, [u8; 16])]) -> BlockParts {
    let mut next = 0;
    let records = files.iter().map(|&(id, key)| {
        let delta = i64::from(id) - next;
        next = i64::from(id) + 1;
        Record {
            delta: i32::try_from(delta).expect("a delta has 32 bits"),
            key,
            name_hash: [0xee; 8],
        }
    });
    BlockParts {
        locale,
        content,
        unknown: [0xdd; 5],
        records: records.collect(),
    }
}

/// The encoding file of content keys, each with its encoding keys one after the other, of these
/// lengths.
pub fn encoding_file(key_lens: [usize; 2], entries: &ByKey) -> Vec<u8> {
    const PAGE_KB: u16 = 1;

    let [key_len, encoding_key_len] = key_lens;
    let content = entries.iter().map(|(key, encoding_keys)| {
        ContentEntry {
            count: (encoding_keys.len() / encoding_key_len) as u8,
            size: 7,
            key,
            encoding_keys,
        }
        .bytes()
    });
    let encoding = EncodingEntry {
        key: &vec![7; encoding_key_len],
        spec_number: 0,
        size: 7,
    };
    let table = |key_len, pages| TableParts {
        key_size: key_len as u8,
        page_kb: PAGE_KB,
        pages,
    };
    write(&Parts {
        specs: b"n\0".to_vec(),
        content: table(key_len, paged(content, PAGE_KB)),
        encoding: table(encoding_key_len, vec![encoding.bytes()]),
        own_spec: Vec::new(),
    })
}

/// The index of encoding keys, each with its size and location.
pub fn index_file(settings: Settings, entries: &ByKey) -> IndexFile {
    let list: Vec<_> = entries
        .iter()
        .flat_map(|(key, rest)| [&key[..], rest].concat())
        .collect();
    IndexFile::new(settings, &list)
}

/// A build with the layout that its files were made by.
#[derive(Clone, Debug)]
pub struct BuildFiles {
    /// The root file.
    pub root: RootFile,
    /// The encoding file.
    pub encoding: EncodingFile,
    /// The index.
    pub index: IndexFile,
}

impl BuildFiles {
    /// A build of good files of any layout. Most content keys of the root file stand in the
    /// encoding file, and most first encoding keys in the index. Where key sizes differ, they do
    /// but for what was cut or filled up.
    pub fn random(random: &mut Random) -> Self {
        let mut index = IndexFile::random_layout(random);
        let mut key_lens = [16, index.settings.key_len()];
        if random.up_to(9) == 0 {
            key_lens[random.up_to(1)] = 1 + random.up_to(15);
        }
        let mut encoding = EncodingFile::with_key_lens(random, key_lens);
        lead_to_index(random, &mut encoding, &mut index);
        let root = loop {
            let root = RootFile::random(random);
            if root.records().next().is_some() {
                break root;
            }
        };
        let root = lead_to_encoding(random, root, &encoding);
        Self {
            root,
            encoding,
            index,
        }
    }

    /// The bytes of all three.
    pub fn files(&self) -> Files {
        [&self.root.bytes, &self.encoding.bytes, &self.index.bytes].map(Vec::clone)
    }
}

/// Gives most content entries a first encoding key that stands in the index.
fn lead_to_index(random: &mut Random, encoding: &mut EncodingFile, index: &mut IndexFile) {
    let key_len = encoding.sizes(Kind::Encoding).key_len();
    for number in 0..encoding.entries(Kind::Content).len() {
        if index.entries > 0 && random.up_to(7) > 0 {
            let key = index.key(random.up_to(index.entries - 1));
            let start = encoding.key(Kind::Content, number).end;
            let first = &mut encoding.bytes[start..start + key_len];
            first.copy_from_slice(&resized(random, key, key_len));
        }
    }
    encoding.fix_hashes();
}

/// Gives most records a content key that stands in the encoding file.
fn lead_to_encoding(random: &mut Random, root: RootFile, encoding: &EncodingFile) -> RootFile {
    let RootFile {
        header, mut blocks, ..
    } = root;
    let entries = encoding.entries(Kind::Content).len();
    for record in blocks.iter_mut().flat_map(|block| &mut block.records) {
        if random.up_to(7) > 0 {
            let key = encoding.key(Kind::Content, random.up_to(entries - 1));
            let key = resized(random, &encoding.bytes[key], record.key.len());
            record.key.copy_from_slice(&key);
        }
    }
    RootFile::new(header, blocks)
}

/// The key cut or filled up with zeros to this length, at its end or at its front.
fn resized(random: &mut Random, key: &[u8], length: usize) -> Vec<u8> {
    let [at_end, at_front] = both_resized(key, length);
    match random.up_to(1) {
        0 => at_end,
        _ => at_front,
    }
}

/// The key cut or filled up with zeros to this length, at its end and at its front.
pub fn both_resized(key: &[u8], length: usize) -> [Vec<u8>; 2] {
    let mut at_end = key.to_vec();
    at_end.resize(length, 0);
    let mut at_front: Vec<_> = key.iter().rev().copied().collect();
    at_front.resize(length, 0);
    at_front.reverse();
    [at_end, at_front]
}
