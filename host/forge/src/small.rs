//! Small files with chosen contents, for tests of single answers.

use std::collections::BTreeMap;

use second::encoding::{Parts, TableParts};
use second::root::write;

use crate::faults::chain::{encoding_file, root_block};

/// A root file of the ids 5, 6 and 7 with content keys of bytes 51, 61 and 71, in a block of the
/// locale 2 with the content flag 4.
pub fn root() -> Vec<u8> {
    let files = [(5, 0x51), (6, 0x61), (7, 0x71)].map(|(id, byte)| (id, [byte; 16]));
    write(None, &[root_block(2, 4, &files)])
}

/// An encoding file in which content keys of bytes 51 and 61, of this length, have the encoding
/// keys a5 and a6, and a4 besides.
pub fn encoding(key_len: usize) -> Vec<u8> {
    let entry = |key, encoding_key| (vec![key; key_len], vec![encoding_key, 0xa4]);
    let entries = BTreeMap::from([entry(0x51, 0xa5), entry(0x61, 0xa6)]);
    encoding_file([key_len, 1], &entries)
}

/// The parts of an encoding file of the content keys 00 05 and 00 08, on a page each, and of the
/// encoding keys a1 and a2.
pub fn encoding_parts() -> Parts {
    let table = |key_size, pages| TableParts {
        key_size,
        page_kb: 1,
        pages,
    };
    let five = vec![2, 1, 2, 3, 4, 5, 0, 5, 0xa1, 0xa2];
    let eight = vec![1, 0, 0, 0, 0, 0, 0, 8, 0xa1];
    let a1 = [0xa1, 0, 0, 0, 1, 6, 7, 8, 9, 10];
    let a2 = [0xa2, 0, 0, 0, 0, 0, 0, 0, 0, 0];
    Parts {
        specs: b"n\0zz\0".to_vec(),
        content: table(2, vec![five, eight]),
        encoding: table(1, vec![[a1, a2].concat()]),
        own_spec: Vec::new(),
    }
}
