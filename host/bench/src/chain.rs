//! The chain through a root file, an encoding file and an index.

use fuzz::export::{ANSWERED, Given, RESOLVE};

use crate::encoding;
use crate::index;
use crate::root::{self, LOCALE};
use crate::table::{Call, Table};

/// How many blocks the root file has, how many entries the encoding file and how long its spec
/// table is, and how many entries the index has.
const BUILDS: [(u32, (usize, usize), usize); 3] = [
    (4, (1000, 1000), 1700),
    (40, (50_000, 10_000), 50_000),
    (400, (747_029, 76_025), 1_000_000),
];

/// Prints the lines.
pub fn measure(table: &mut Table) {
    for (blocks, sizes, entries) in BUILDS {
        let root = root::File::new(None, blocks, sizes.0);
        let encoding = encoding::File::new(sizes, entries);
        let index = index::File::new(entries);
        let files = [&root.bytes[..], &encoding.bytes, &index.index];
        let id = root.last_id(blocks / 2);
        table.calls([Call {
            export: &RESOLVE,
            kind: "",
            size: root.records(),
            unit: "records",
            given: Box::new(move |_| Given::new(files, [id.into(), LOCALE.into(), 0])),
            result: ANSWERED,
            output: 0,
            hashed: Vec::new(),
        }]);
    }
}
