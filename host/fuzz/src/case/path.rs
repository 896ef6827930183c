//! A root file with name hashes, and paths.

use super::Compared;
use super::root::masks;
use crate::compare::{Comparison, Output};
use crate::export::{Given, NAME_HASH, ROOT_FIND_PATH};
use forge::build::Root;
use forge::damage::damage;
use forge::paths::{path, respelled};
use forge::random::Random;

pub fn compare(random: &mut Random, comparison: &mut Comparison) -> Compared {
    let count = random.within(1..=3);
    let paths: Vec<_> = (0..count).map(|_| path(random)).collect();
    let root = Root::named(random, &paths);
    let mut file = root.file.clone();
    if random.one_in(2) {
        damage(&mut file, random, |random| root.place(random));
    }
    for path in &paths {
        let path = sought(random, path);
        comparison.call(&NAME_HASH, &Given::new([&path], []), Output::None)?;
        let given = Given::new([&file, &path], masks(random));
        comparison.call(&ROOT_FIND_PATH, &given, Output::Bytes(16))?;
    }
    Ok(())
}

/// A path, mostly in another spelling; rarely another path.
fn sought(random: &mut Random, known: &[u8]) -> Vec<u8> {
    match random.within(0..=6) {
        0 => path(random),
        1 => known.to_vec(),
        _ => respelled(random, known),
    }
}
