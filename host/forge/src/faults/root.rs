//! Root files.

use second::refusal::{self, Refusal};
use second::root::{BlockParts, Header, Layout, MAGICS, NO_NAME_HASHES, Record, write};

use crate::paths::{BIT_13, put_names};
use crate::random::Random;

/// The first id of the upper half of the range.
const MIDDLE: i64 = 1 << 31;

/// A file with the parts that it was made of.
#[derive(Clone, Debug)]
pub struct RootFile {
    /// Its header; none without a magic.
    pub header: Option<Header>,
    /// How its blocks are laid out.
    pub layout: Layout,
    /// Its blocks.
    pub blocks: Vec<BlockParts>,
    /// The file.
    pub bytes: Vec<u8>,
}

/// A fault of the block of this number, in the order in which they are judged.
#[derive(Clone, Copy, Debug, PartialEq, Eq, PartialOrd, Ord)]
pub enum Fault {
    /// 40.
    Cut,
    /// 41; the block has a record.
    Id,
}

impl RootFile {
    /// The file of these parts.
    pub fn new(header: Option<Header>, blocks: Vec<BlockParts>) -> Self {
        let bytes = write(header, &blocks);
        Self {
            header,
            layout: Layout::behind(header),
            blocks,
            bytes,
        }
    }

    /// A good file of any layout.
    pub fn random(random: &mut Random) -> Self {
        let header = random_header(random);
        let most = [1, 3, 3, 10][random.up_to(3)];
        let blocks = (0..random.up_to(most)).map(|_| random_block(random));
        Self::new(header, blocks.collect())
    }

    /// A good file of any layout, whose blocks all have name hashes, mostly those of these paths.
    pub fn named(random: &mut Random, paths: &[Vec<u8>]) -> Self {
        let Self {
            header, mut blocks, ..
        } = Self::random(random);
        for block in &mut blocks {
            block.content &= !NO_NAME_HASHES;
            put_names(random, block, paths);
        }
        Self::new(header, blocks)
    }

    /// Where a block starts; with the number of all blocks, where the last ends.
    pub fn place(&self, block: usize) -> usize {
        write(self.header, &self.blocks[..block]).len()
    }

    /// Where a record's delta stands.
    pub fn delta(&self, block: usize, record: usize) -> usize {
        self.place(block) + self.layout.block_header + 4 * record
    }

    /// Where a record's key stands.
    pub fn key(&self, block: usize, record: usize) -> usize {
        let first = self.delta(block, self.blocks[block].records.len());
        first + self.layout.key_step * record
    }

    /// The block and the number of each record in file order.
    pub fn records(&self) -> impl Iterator<Item = (usize, usize)> {
        let counts = self.blocks.iter().map(|block| block.records.len());
        counts
            .enumerate()
            .flat_map(|(block, count)| (0..count).map(move |record| (block, record)))
    }

    /// Whether a block counts for a mask of locales and one of unwanted content.
    pub fn counts(&self, block: usize, (locale, unwanted): (u32, u64)) -> bool {
        let block = &self.blocks[block];
        block.locale & locale != 0 && u64::from(block.content) & unwanted == 0
    }

    /// The id of a record, which is a good one.
    pub fn id(&self, block: usize, record: usize) -> u32 {
        let deltas = self.blocks[block].records[..=record].iter();
        let sum: i64 = deltas.map(|record| i64::from(record.delta)).sum();
        u32::try_from(sum + record as i64).expect("the ids are in their range")
    }

    /// An id of the file, which is a good one, one beside it, at an end of the range, or any.
    pub fn any_id(&self, random: &mut Random) -> u32 {
        let records: Vec<_> = self.records().collect();
        let id = match records.len() {
            0 => 0,
            count => {
                let (block, record) = records[random.up_to(count - 1)];
                self.id(block, record)
            }
        };
        match random.up_to(7) {
            0 => id.wrapping_add(1),
            1 => id.wrapping_sub(1),
            2 => [0, u32::MAX, random.word() as u32][random.up_to(2)],
            _ => id,
        }
    }

    /// What a file with this fault first is refused with.
    pub fn refusal(&self, block: usize, fault: Fault) -> Refusal {
        match fault {
            Fault::Cut => refusal::block_cut(self.place(block)),
            Fault::Id => refusal::id_range(self.place(block)),
        }
    }

    /// Puts a fault into a block of a good file. Other blocks stay as they are.
    pub fn put_fault(&mut self, random: &mut Random, block: usize, fault: Fault) {
        match fault {
            Fault::Cut => {
                // More records than the file holds, or all that there could be.
                let at = self.place(block);
                let past = (self.bytes.len() - at) as u32 / 20 + 1;
                let count = [past, past + random.up_to(100) as u32, 1 << 31, u32::MAX];
                self.put(at, count[random.up_to(3)]);
            }
            Fault::Id => {
                let record = random.up_to(self.blocks[block].records.len() - 1);
                let next = match record {
                    0 => 0,
                    _ => i64::from(self.id(block, record - 1)) + 1,
                };
                // From the middle a delta reaches neither end of the range.
                let (record, delta) = match next {
                    MIDDLE => (0, -1),
                    0..MIDDLE => (record, -next - 1),
                    _ => (record, 2 * MIDDLE - next),
                };
                self.put(self.delta(block, record), delta as u32);
            }
        }
    }

    /// Puts a number in four bytes.
    fn put(&mut self, at: usize, number: u32) {
        self.bytes[at..at + 4].copy_from_slice(&number.to_le_bytes());
    }
}

/// Either magic with numbers at both ends of what means a long header.
pub fn headers_about_the_bounds() -> impl Iterator<Item = Header> {
    let numbers = [15, 16, 19, 20, 99, 100]
        .into_iter()
        .flat_map(|a| [0, 1, 2, 3, 5].map(|b| (a, b)));
    numbers.flat_map(|(a, b)| MAGICS.map(|magic| Header { magic, a, b }))
}

/// None, or either magic with a short header or a good long one.
fn random_header(random: &mut Random) -> Option<Header> {
    let (a, b) = match random.up_to(6) {
        0 | 1 => return None,
        2 | 3 => (20 + random.up_to(79), 1 + random.up_to(2)),
        4 => (random.up_to(15), random.up_to(5)),
        5 => ([100, 1 << 31][random.up_to(1)], random.up_to(5)),
        _ => (16 + random.up_to(83), [0, 5, 1 << 24][random.up_to(2)]),
    };
    Some(Header {
        magic: MAGICS[random.up_to(1)],
        a: a as u32,
        b: b as u32,
    })
}

/// A block of few records, or of none.
fn random_block(random: &mut Random) -> BlockParts {
    let most = [0, 2, 6, 30][random.up_to(3)];
    let mut next = 0;
    let records = (0..random.up_to(most)).map(|_| {
        let delta = random_delta(random, next);
        next += i64::from(delta) + 1;
        Record {
            delta,
            key: random.array(),
            name_hash: random.array(),
        }
    });
    let records = records.collect();
    BlockParts {
        records,
        locale: random_flags(random),
        content: random_flags(random),
        unknown: random.array(),
    }
}

/// A delta that leads from the number behind the id before to an id near it, at an end of the
/// range, or anywhere.
fn random_delta(random: &mut Random, next: i64) -> i32 {
    let id = match random.up_to(9) {
        0 => 0,
        1 => u32::MAX.into(),
        2 => i32::MAX.into(),
        3 => i64::from(random.word() as u32),
        4 => next - 1,
        5 => next - random.up_to(20) as i64,
        6 => next + random.up_to(20) as i64,
        _ => next,
    };
    let delta = id.clamp(0, u32::MAX.into()) - next;
    delta.clamp(i32::MIN.into(), i32::MAX.into()) as i32
}

/// None, one, all or any flags; often that of name hashes or bit 13.
pub fn random_flags(random: &mut Random) -> u32 {
    let flags = match random.up_to(4) {
        0 => 0,
        1 => u32::MAX,
        2 => random.word() as u32,
        _ => 1 << random.up_to(31),
    };
    match random.up_to(3) {
        0 => flags ^ NO_NAME_HASHES,
        1 => flags ^ BIT_13,
        _ => flags,
    }
}

/// A mask of locales and one of unwanted content: often all and none.
pub fn random_masks(random: &mut Random) -> (u32, u64) {
    let locale = [u32::MAX, random_flags(random)][random.up_to(1)];
    let unwanted = [0, 0, random_flags(random).into(), random.word()][random.up_to(3)];
    (locale, unwanted)
}
