//! An archive index: every call that takes one.

use second::index::FOOTER;

use super::Compared;
use crate::compare::{Comparison, Output};
use crate::export::{
    ANSWERED, Given, INDEX_BOUND, INDEX_CHECK, INDEX_ENTRY, INDEX_FOOTER, INDEX_LIST,
    INDEX_LISTING, INDEX_LOOKUP, INDEX_LOOSE, INDEX_PAGE, INDEX_SETTINGS,
};
use forge::build::{self, Index, List};
use forge::damage::{damage, room};
use forge::random::Random;
use forge::repair;

/// Where the offset width stands in a footer.
const OFFSET_WIDTH: usize = 12;

/// The most bytes that a listing takes.
const MOST_LISTED: usize = 65_536;

pub fn compare(random: &mut Random, comparison: &mut Comparison) -> Compared {
    let index = Index::of(List::new(random));
    let mut file = index.file.clone();
    damage(&mut file, random, |random| index.place(random));
    if random.one_in(20) {
        make_loose(&mut file);
    }
    repair::index(&mut file, index.footer(), random);
    if random.one_in(400) {
        file.resize(random.within(MOST_LISTED - 1..=MOST_LISTED + 2), 0);
        return listing(random, comparison, &file);
    }
    let given = Given::new([&file], []);
    for export in [
        &INDEX_CHECK,
        &INDEX_SETTINGS,
        &INDEX_BOUND,
        &INDEX_FOOTER,
        &INDEX_LOOSE,
    ] {
        comparison.call(export, &given, Output::None)?;
    }
    let end = file.len() - random.within(0..=60).min(file.len());
    comparison.call(&INDEX_FOOTER, &Given::new([&file[end..]], []), Output::None)?;
    entries(random, comparison, &index, &file)?;
    lookups(random, comparison, &index, &file)?;
    if random.one_in(2) {
        let length = room(index.list.bytes.len(), random);
        comparison.call(&INDEX_LIST, &given, Output::Bytes(length))?;
    }
    if random.one_in(6) {
        listing(random, comparison, &file)?;
    }
    Ok(())
}

/// Makes the footer that of an index of loose files, whose offset width is 0.
fn make_loose(file: &mut [u8]) {
    if let Some(width) = file.len().checked_sub(FOOTER - OFFSET_WIDTH) {
        file[width] = 0;
    }
}

/// Entries by page and slot, and pages, about the number of pages and of a page's entries.
fn entries(
    random: &mut Random,
    comparison: &mut Comparison,
    index: &Index,
    file: &[u8],
) -> Compared {
    let settings = index.list.settings;
    let pages = settings.pages(index.list.entries);
    let full = settings.entries_per_page();
    let on_last = index.list.entries - full * pages.saturating_sub(1);
    for _ in 0..2 {
        let page = about(random, pages);
        let on_page = random.pick(&[full, on_last, on_last]);
        let given = Given::new([file], [page, about(random, on_page)]);
        comparison.call(&INDEX_ENTRY, &given, Output::None)?;
        let given = Given::new([file], [about(random, pages)]);
        comparison.call(&INDEX_PAGE, &given, Output::None)?;
    }
    Ok(())
}

/// Mostly a number below this count, else one about it, one whose lowest 32 bits alone are below
/// it, or any.
fn about(random: &mut Random, count: usize) -> u64 {
    let below = random.up_to(count.saturating_sub(1)) as u64;
    let count = count as u64;
    match random.within(0..=11) {
        0 => random.number(64),
        1 => below | random.pick(&[1 << 32, 1 << 63, u64::MAX << 32]),
        2 => count,
        3 => count + 1,
        4 => count.saturating_sub(1),
        _ => below,
    }
}

fn lookups(
    random: &mut Random,
    comparison: &mut Comparison,
    index: &Index,
    file: &[u8],
) -> Compared {
    let key_length = index.list.settings.key_len();
    for _ in 0..4 {
        let key = build::sought(random, &index.list.keys, key_length);
        let given = Given::new([file, &key], []);
        comparison.call(&INDEX_LOOKUP, &given, Output::None)?;
    }
    Ok(())
}

/// The listing without room, and where it is answered with about as much as it needs.
fn listing(random: &mut Random, comparison: &mut Comparison, file: &[u8]) -> Compared {
    let given = Given::new([file], []);
    let said = comparison.call(&INDEX_LISTING, &given, Output::None)?;
    if said.result == ANSWERED {
        let length = room(said.words[0] as usize, random);
        comparison.call(&INDEX_LISTING, &given, Output::Bytes(length))?;
    }
    Ok(())
}
