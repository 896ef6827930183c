//! The three files of the chain, of which at most one is damaged.

use second::index::Settings;

use super::Compared;
use super::root::wanted;
use crate::compare::{Comparison, Output};
use crate::export::{Given, RESOLVE};
use forge::build::{Encoding, Index, KeySizes, List, Root};
use forge::damage::damage;
use forge::random::Random;
use forge::repair;

pub fn compare(random: &mut Random, comparison: &mut Comparison) -> Compared {
    let sizes = KeySizes {
        content: if random.one_in(20) { 15 } else { 16 },
        encoding: random.pick(&[16, 16, 16, 9]),
    };
    let index = index(random, sizes.encoding);
    let encoding = Encoding::new(random, sizes, &index.list.keys);
    let root = Root::new(random, &encoding.content_keys);
    let mut files = [&root.file, &encoding.file, &index.file].map(Vec::clone);
    match random.within(0..=7) {
        0 | 1 => damage(&mut files[0], random, |random| root.place(random)),
        2 | 3 => {
            damage(&mut files[1], random, |random| encoding.place(random));
            repair::encoding(&mut files[1], random);
        }
        4..=6 => {
            damage(&mut files[2], random, |random| index.place(random));
            repair::index(&mut files[2], index.footer(), random);
        }
        _ => {}
    }
    for _ in 0..4 {
        let [root_file, encoding_file, index_file] = &files;
        let wanted = wanted(random, &root.ids);
        let given = Given::new([root_file, encoding_file, index_file], wanted);
        comparison.call(&RESOLVE, &given, Output::None)?;
    }
    Ok(())
}

/// An index with keys of this length, rarely of another.
fn index(random: &mut Random, key_length: u8) -> Index {
    let settings = Settings {
        version: 1,
        offset_width: random.within(4..=6) as u32,
        key_length: if random.one_in(20) {
            7
        } else {
            key_length.into()
        },
    };
    Index::of(List::with(random, settings))
}
