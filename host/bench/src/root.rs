//! Root files, of blocks of 3,750 records.

use fuzz::export::{
    ABSENT, ANSWERED, Export, Given, ROOT_CHECK, ROOT_FIND, ROOT_FIND_MANY, ROOT_FIND_PATH,
};
use second::name_hash::name_hash;
use second::root::{BlockParts, Header, Record, write};

use crate::encoding::content_key;
use crate::many::{FOUND, rising};
use crate::path::path;
use crate::table::{Call, Table};

/// How many blocks the files have.
const BLOCKS: [u32; 3] = [4, 40, 400];

/// How many records a block has.
const RECORDS: u32 = 3750;

/// How many entries the encoding file would have whose content keys stand here.
const ENTRIES: usize = 1000;

/// The locale of all blocks.
pub const LOCALE: u32 = 0x2;

/// A long header of version 2.
pub const LONG: Option<Header> = Some(Header {
    magic: *b"TSFM",
    a: 24,
    b: 2,
});

/// A root file.
pub struct File {
    pub bytes: Vec<u8>,
    blocks: u32,
}

impl File {
    /// A file of `blocks` blocks, whose ids are as far apart as there are blocks, so that all go
    /// through the same range. The keys of the records are the content keys of an encoding file of
    /// `entries` entries, and their name hashes those of counted paths.
    pub fn new(header: Option<Header>, blocks: u32, entries: usize) -> Self {
        let parts = (0..blocks).map(|block| {
            let records = (0..RECORDS).map(|record| {
                let number = (block * RECORDS + record) as usize;
                let delta = if record == 0 { block } else { blocks - 1 };
                let hash = name_hash(&path(number)).expect("the path is short");
                Record {
                    delta: delta as i32,
                    key: content_key(number % entries, entries),
                    name_hash: hash.to_le_bytes(),
                }
            });
            BlockParts {
                locale: LOCALE,
                content: 0,
                unknown: [0; 5],
                records: records.collect(),
            }
        });
        Self {
            bytes: write(header, &parts.collect::<Vec<_>>()),
            blocks,
        }
    }

    /// How many records it has.
    pub fn records(&self) -> usize {
        (self.blocks * RECORDS) as usize
    }

    /// The last id of a block.
    pub fn last_id(&self, block: u32) -> u32 {
        block + self.blocks * (RECORDS - 1)
    }

    fn call(&self, export: &'static Export, kind: &'static str) -> Call<'_> {
        Call {
            export,
            kind,
            size: self.records(),
            unit: "records",
            given: Box::new(|_| Given::new([&self.bytes], [])),
            result: ANSWERED,
            output: 0,
            hashed: Vec::new(),
        }
    }

    /// The lookup of an id.
    fn find(&self, kind: &'static str, id: u32) -> Call<'_> {
        let numbers = [id.into(), LOCALE.into(), 0];
        Call {
            given: Box::new(move |_| Given::new([&self.bytes], numbers)),
            output: 16,
            ..self.call(&ROOT_FIND, kind)
        }
    }

    /// The lookup of a path.
    fn find_path<'a>(&'a self, kind: &'static str, path: &'a [u8]) -> Call<'a> {
        let numbers = [LOCALE.into(), 0];
        Call {
            given: Box::new(move |_| Given::new([&self.bytes, path], numbers)),
            output: 16,
            ..self.call(&ROOT_FIND_PATH, kind)
        }
    }

    /// The lookup of many ids.
    fn find_many<'a>(&'a self, ids: &'a [u8]) -> Call<'a> {
        let numbers = [LOCALE.into(), 0];
        Call {
            given: Box::new(move |_| Given::new([&self.bytes, ids], numbers)),
            output: FOUND * (ids.len() / 4),
            ..self.call(&ROOT_FIND_MANY, ", an id for each 15 records")
        }
    }
}

/// Prints the lines.
pub fn measure(table: &mut Table) {
    let without_magic = BLOCKS.map(|blocks| File::new(None, blocks, ENTRIES));
    let with_header = BLOCKS.map(|blocks| File::new(LONG, blocks, ENTRIES));
    let check = |file, kind| File::call(file, &ROOT_CHECK, kind);
    table.calls(
        without_magic
            .iter()
            .map(|file| check(file, ", without magic")),
    );
    table.calls(with_header.iter().map(|file| check(file, ", long header")));
    let files = with_header.iter();
    table.calls(
        files
            .clone()
            .map(|file| file.find(", in the first block", file.last_id(0))),
    );
    table.calls(files.clone().map(|file| {
        let id = file.last_id(file.blocks - 1);
        file.find(", in the last block", id)
    }));
    table.calls(files.clone().map(|file| Call {
        result: ABSENT,
        ..file.find(", absent", u32::MAX)
    }));
    let lists = with_header
        .each_ref()
        .map(|file| rising(file.records() / 15, file.records()));
    table.calls(files.zip(&lists).map(|(file, ids)| file.find_many(ids)));
    measure_paths(table, &with_header);
}

/// The paths of the same records.
fn measure_paths(table: &mut Table, files: &[File]) {
    let first = path(RECORDS as usize - 1);
    let last: Vec<_> = files.iter().map(|file| path(file.records() - 1)).collect();
    let absent = path(u32::MAX as usize);
    table.calls(
        files
            .iter()
            .map(|file| file.find_path(", in the first block", &first)),
    );
    table.calls(
        files
            .iter()
            .zip(&last)
            .map(|(file, path)| file.find_path(", in the last block", path)),
    );
    table.calls(files.iter().map(|file| Call {
        result: ABSENT,
        ..file.find_path(", absent", &absent)
    }));
}
