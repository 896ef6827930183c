//! A root file.

use super::{Compared, path};
use crate::compare::{Comparison, Output};
use crate::export::{Given, ROOT_CHECK, ROOT_FIND, ROOT_FIND_MANY};
use forge::build::{Root, flags};
use forge::damage::{damage, room};
use forge::random::Random;

pub fn compare(random: &mut Random, comparison: &mut Comparison) -> Compared {
    let root = Root::new(random, &[]);
    let mut file = root.file.clone();
    damage(&mut file, random, |random| root.place(random));
    comparison.call(&ROOT_CHECK, &Given::new([&file], []), Output::None)?;
    for _ in 0..4 {
        let given = Given::new([&file], wanted(random, &root.ids));
        comparison.call(&ROOT_FIND, &given, Output::Bytes(16))?;
    }
    let ids = list(random, &root.ids);
    let [_, locale, unwanted] = wanted(random, &root.ids);
    let given = Given::new([&file, &ids], [locale, unwanted]);
    let length = room(20 * (ids.len() / 4), random);
    comparison.call(&ROOT_FIND_MANY, &given, Output::Bytes(length))?;
    // Last, so that the calls before it are those of earlier versions.
    path::compare(random, comparison)
}

/// A list of ids that rises, with equal neighbours; rarely one that falls, or that is not whole.
fn list(random: &mut Random, ids: &[u32]) -> Vec<u8> {
    let count = random.pick(&[0, 1, 2, 5, 9, 30]);
    let mut sought: Vec<_> = (0..count).map(|_| wanted(random, ids)[0] as u32).collect();
    sought.sort_unstable();
    if count > 1 && random.one_in(6) {
        let (one, other) = (random.within(0..=count - 1), random.within(0..=count - 1));
        sought.swap(one, other);
    }
    let mut list: Vec<u8> = sought.iter().flat_map(|id| id.to_be_bytes()).collect();
    if random.one_in(12) {
        list.truncate(list.len().saturating_sub(random.within(1..=3)));
    }
    list
}

/// Id, locale mask and mask of unwanted content: mostly such that something is found.
pub fn wanted(random: &mut Random, ids: &[u32]) -> [u64; 3] {
    let id = match ids {
        [] => random.number(32),
        _ if random.one_in(5) => random.number(32),
        _ => random.pick(ids).into(),
    };
    let [locale, unwanted] = masks(random);
    [id, locale, unwanted]
}

/// Locale mask and mask of unwanted content, likewise.
pub fn masks(random: &mut Random) -> [u64; 2] {
    let locale = match random.within(0..=3) {
        0 => flags(random).into(),
        _ => 2,
    };
    let unwanted = match random.within(0..=3) {
        0 => u64::from(flags(random)),
        1 => u64::from(flags(random)) << 32,
        _ => 0,
    };
    [locale, unwanted]
}
