//! Paths, and what records of a root file have in place of them.

use second::name_hash;
use second::root::{BlockParts, NO_NAME_HASHES};

use crate::random::Random;

/// Folders and files as builds have them, and some with bytes above 127.
const NAMES: [&[u8]; 8] = [
    b"Interface",
    b"ICONS",
    b"world",
    b"INV_Misc_QuestionMark.blp",
    b"a",
    b"z-0.m2",
    b"\xc3\xa9t\xc3\xa9",
    b"",
];

/// The content flag that 004 lists in place of `NO_NAME_HASHES`. It drops nothing.
pub const BIT_13: u32 = 1 << 13;

/// Lengths of paths about the greatest.
const LONG: [usize; 3] = [1023, 1024, 1025];

/// A path: that of a file, none, one of any bytes, or one about the greatest length.
pub fn path(random: &mut Random) -> Vec<u8> {
    let length = match random.within(0..=9) {
        0 => 0,
        1 => random.within(1..=40),
        2 => random.pick(&LONG),
        _ => {
            let names: Vec<_> = (0..random.within(1..=4))
                .map(|_| random.pick(&NAMES))
                .collect();
            return names.join(&random.pick(b"/\\"));
        }
    };
    random.bytes(length)
}

/// The same path in another spelling: any of its letters from a to z in either case, any of its
/// slashes as either.
pub fn respelled(random: &mut Random, path: &[u8]) -> Vec<u8> {
    let spelled = path.iter().map(|&byte| match byte {
        b'/' | b'\\' => random.pick(b"/\\"),
        b'a'..=b'z' | b'A'..=b'Z' => byte ^ random.pick(&[0, 0x20]),
        _ => byte,
    });
    spelled.collect()
}

/// Gives the records of a block mostly the name hashes of these paths. Where its flags say that it
/// has none, and rarely elsewhere, their content keys have these bytes.
pub fn put_names(random: &mut Random, block: &mut BlockParts, paths: &[Vec<u8>]) {
    let unnamed = block.content & NO_NAME_HASHES != 0;
    for record in &mut block.records {
        let path = random.up_to(paths.len() - 1);
        record.name_hash = stored(random, &paths[path]);
        if unnamed || random.one_in(8) {
            let (first, second) = record.key.split_at_mut(8);
            first.copy_from_slice(&record.name_hash);
            second.copy_from_slice(&record.name_hash);
        }
    }
}

/// Mostly the name hash of a path as it is stored; else with its bytes or its halves exchanged, with
/// another bit, or any.
fn stored(random: &mut Random, path: &[u8]) -> [u8; 8] {
    let any = random.word();
    let hash = name_hash::name_hash(path).unwrap_or(any);
    let stored = match random.within(0..=11) {
        0 => hash.swap_bytes(),
        1 => hash.rotate_left(32),
        2 => hash ^ 1 << random.within(0..=63),
        3 => any,
        _ => hash,
    };
    stored.to_le_bytes()
}
