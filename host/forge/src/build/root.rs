//! Root files.

use second::root::{BlockParts, Header, Layout, MAGICS, NO_NAME_HASHES, Record, write};

use crate::damage::Place;
use crate::paths::{BIT_13, put_names};
use crate::random::Random;

/// A root file and the ids in it.
#[derive(Clone, Debug)]
pub struct Root {
    /// The file.
    pub file: Vec<u8>,
    /// The ids of its records, as far as they are in range.
    pub ids: Vec<u32>,
    /// Where its blocks stand, and how many records they have.
    blocks: Vec<(usize, usize)>,
    layout: Layout,
}

impl Root {
    /// A file of up to five blocks. Content keys are mostly of these, if there are any.
    pub fn new(random: &mut Random, content_keys: &[u8]) -> Self {
        let header = header(random);
        let count = random.within(0..=5);
        let blocks = (0..count).map(|_| block(random, content_keys));
        Self::of(header, blocks.collect())
    }

    /// A file of up to five blocks. Its records mostly have the name hashes of these paths.
    pub fn named(random: &mut Random, paths: &[Vec<u8>]) -> Self {
        let header = header(random);
        let count = random.within(0..=5);
        let mut blocks: Vec<_> = (0..count).map(|_| block(random, &[])).collect();
        for block in &mut blocks {
            put_names(random, block, paths);
        }
        Self::of(header, blocks)
    }

    fn of(header: Option<Header>, blocks: Vec<BlockParts>) -> Self {
        let mut places = Vec::with_capacity(blocks.len());
        for first in 0..blocks.len() {
            let at = write(header, &blocks[..first]).len();
            places.push((at, blocks[first].records.len()));
        }
        Self {
            file: write(header, &blocks),
            ids: blocks.iter().flat_map(ids).collect(),
            blocks: places,
            layout: Layout::behind(header),
        }
    }

    /// A number of the header or of a block's header, or a delta.
    pub fn place(&self, random: &mut Random) -> Place {
        if self.blocks.is_empty() || random.one_in(4) {
            return Place::alone(random.pick(&[0, 4, 8]), 4);
        }
        let (at, records) = random.pick(&self.blocks);
        let deltas = at + self.layout.block_header;
        let at = match random.within(0..=3) {
            0 => at,
            1 => at + random.pick(&[self.layout.locale_at, self.layout.content_at]),
            _ => deltas + 4 * random.within(0..=records.max(1) - 1),
        };
        Place::alone(at, 4)
    }
}

/// None, a long one or a short one, with numbers about the bounds between these.
fn header(random: &mut Random) -> Option<Header> {
    let magic = random.pick(&MAGICS);
    let (a, b) = match random.within(0..=8) {
        0..=2 => return None,
        3 | 4 => (random.within(20..=99) as u32, random.pick(&[1, 2, 3])),
        5 => (random.within(15..=21) as u32, random.pick(&[0, 1, 2, 4, 5])),
        6 => (random.within(98..=101) as u32, random.pick(&[1, 2, 3, 4])),
        _ => (random.number(32) as u32, random.number(32) as u32),
    };
    Some(Header { magic, a, b })
}

fn block(random: &mut Random, content_keys: &[u8]) -> BlockParts {
    let (known, _) = content_keys.as_chunks::<16>();
    let count = random.pick(&[0, 1, 1, 2, 3, 5, 9, 20]);
    let records = (0..count).map(|_| Record {
        delta: delta(random),
        key: match known {
            [] => [random.word() as u8; 16],
            _ => random.pick(known),
        },
        name_hash: random.word().to_le_bytes(),
    });
    let records = records.collect();
    BlockParts {
        locale: flags(random),
        content: flags(random),
        unknown: [random.word() as u8; 5],
        records,
    }
}

/// Mostly small; rarely one that leads out of the range.
fn delta(random: &mut Random) -> i32 {
    match random.within(0..=99) {
        0 => random.number(32) as i32,
        1 => -1,
        _ => random.within(0..=5) as i32,
    }
}

/// Few bits, that of name hashes and bit 13 often.
pub fn flags(random: &mut Random) -> u32 {
    match random.within(0..=5) {
        0 => 0,
        1 => u32::MAX,
        2 => NO_NAME_HASHES | 2,
        3 => BIT_13 | 2,
        _ => 1 << random.within(0..=31) | 2,
    }
}

/// The ids of a block, up to the first outside of the range.
fn ids(block: &BlockParts) -> Vec<u32> {
    let mut next = 0;
    let ids = block.records.iter().map_while(|record| {
        let id = next + i64::from(record.delta);
        next = id + 1;
        u32::try_from(id).ok()
    });
    ids.collect()
}
