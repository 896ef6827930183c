//! An encoding file.

use super::Compared;
use crate::compare::{Comparison, Output};
use crate::export::{
    ENCODING_CHECK, ENCODING_FIND_CONTENT, ENCODING_FIND_ENCODING, ENCODING_SPEC, Export, Given,
};
use forge::build::{self, Encoding, KeySizes};
use forge::damage::damage;
use forge::random::Random;
use forge::repair;

pub fn compare(random: &mut Random, comparison: &mut Comparison) -> Compared {
    let sizes = KeySizes::any(random);
    let encoding = Encoding::new(random, sizes, &[]);
    let mut file = encoding.file.clone();
    damage(&mut file, random, |random| encoding.place(random));
    repair::encoding(&mut file, random);
    let given = Given::new([&file], []);
    comparison.call(&ENCODING_CHECK, &given, Output::None)?;
    let find = &ENCODING_FIND_CONTENT;
    lookups(
        random,
        comparison,
        find,
        &file,
        &encoding.content_keys,
        sizes.content,
    )?;
    let find = &ENCODING_FIND_ENCODING;
    lookups(
        random,
        comparison,
        find,
        &file,
        &encoding.encoding_keys,
        sizes.encoding,
    )?;
    for number in [random.within(0..=encoding.specs) as u64, random.number(32)] {
        comparison.call(&ENCODING_SPEC, &Given::new([&file], [number]), Output::None)?;
    }
    Ok(())
}

/// Lookups of keys of one kind.
fn lookups(
    random: &mut Random,
    comparison: &mut Comparison,
    export: &'static Export,
    file: &[u8],
    keys: &[u8],
    key_size: u8,
) -> Compared {
    for _ in 0..4 {
        let key = build::sought(random, keys, key_size.into());
        comparison.call(export, &Given::new([file, &key], []), Output::None)?;
    }
    Ok(())
}
