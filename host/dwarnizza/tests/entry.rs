//! Single entries, of an index by page and slot and of a list: the library against the second
//! program.

mod compare;

use compare::{compare_outputs, in_library_settings, in_library_terms};
use dwarnizza::index::{IndexEntry, Page, Slot, entry_bytes_into};
use dwarnizza::{Index, Reason, Refusal};
use forge::faults::index::{IndexFile, all_settings, keys, random_list, settings};
use forge::random::Random;
use second::index::Settings;

/// An entry by the second program, as the library has it.
fn second_entry(file: &[u8], page: Page, slot: Slot) -> Result<Option<IndexEntry<'_>>, Refusal> {
    let entry = second::index::entry(file, page.0.into(), slot.0.into());
    let entry = entry.map_err(in_library_terms)?;
    Ok(entry.map(|entry| IndexEntry {
        key: entry.key,
        size: entry.size,
        archive: entry.archive,
        offset: entry.offset,
        page: Page(entry.page as u32),
        slot: Slot(entry.slot as u32),
        place: entry.key.as_ptr().addr() - file.as_ptr().addr(),
    }))
}

/// The entry by both programs.
#[track_caller]
fn compare_entry(file: &[u8], page: Page, slot: Slot) -> Result<Option<IndexEntry<'_>>, Refusal> {
    let entry = Index::unchecked(file).entry_at(page, slot);
    assert_eq!(entry, second_entry(file, page, slot));
    entry
}

/// What an entry of a list is made of.
#[derive(Clone, Debug)]
struct Parts {
    key: Vec<u8>,
    size: u32,
    archive: u32,
    offset: u64,
}

/// The bytes of an entry by the library in an output of this size, compared with the second
/// program's.
#[track_caller]
fn compare_put(settings: Settings, parts: &Parts, room: usize) -> Result<Vec<u8>, Refusal> {
    let Parts {
        key,
        size,
        archive,
        offset,
    } = parts;
    let (size, archive, offset) = (*size, *archive, *offset);
    compare_outputs(
        room,
        |output| {
            let settings = in_library_settings(settings);
            entry_bytes_into(settings, key, size, archive, offset, output)
        },
        |output| {
            second::index::put_entry(settings, key, size, archive, offset, output)
                .map_err(in_library_terms)
        },
    )
}

/// The page and slot of the entry with this number, where all pages but the last are full.
fn place(settings: Settings, number: usize) -> (Page, Slot) {
    let full = settings.entries_per_page();
    (Page((number / full) as u32), Slot((number % full) as u32))
}

/// The entries of an index, page by page and slot by slot, are those of its list, and each can be
/// made again of what is told of it.
#[test]
fn entries_are_those_of_the_list() {
    let mut random = Random::of_test();
    let mut entries = 0;
    for settings in all_settings() {
        let full = settings.entries_per_page();
        let counts = [0, 1, full - 1, full, full + 1, 2 * full, 2 * full + 7];
        for count in counts.into_iter().filter(|&n| n <= keys(settings)) {
            let list = random_list(&mut random, settings, count);
            let file = IndexFile::new(settings, &list).bytes;
            for (number, bytes) in (0..).zip(list.chunks(settings.entry_len())) {
                let (page, slot) = place(settings, number);
                let entry = compare_entry(&file, page, slot).expect("the file is good");
                let entry = entry.expect("it has the entry");
                let parts = Parts {
                    key: entry.key.to_vec(),
                    size: entry.size,
                    archive: entry.archive,
                    offset: entry.offset,
                };
                let made = compare_put(settings, &parts, bytes.len());
                assert_eq!(made.as_deref(), Ok(bytes));
                entries += 1;
            }
        }
    }
    println!("{entries} entries");
}

/// Past the entries of a page there is none, though the next page has some; nor past the pages.
#[test]
fn no_entry_past_a_page() {
    let mut random = Random::of_test();
    for settings in all_settings() {
        let full = settings.entries_per_page();
        for count in [0, 1, full - 1, full, full + 1, 2 * full + 7] {
            let count = count.min(keys(settings));
            let file = IndexFile::random(&mut random, settings, count).bytes;
            let pages = settings.pages(count) as u32;
            let past_slots = (0..pages).flat_map(|page| {
                let on_page = (count - page as usize * full).min(full) as u32;
                [on_page, on_page + 1, u32::MAX].map(|slot| (page, slot))
            });
            let past_pages = [pages, pages + 1, u32::MAX].map(|page| (page, 0));
            for (page, slot) in past_slots.chain(past_pages) {
                assert_eq!(compare_entry(&file, Page(page), Slot(slot)), Ok(None));
            }
        }
    }
}

/// The highest archive number and offset of each offset width, and one more.
#[test]
fn the_highest_locations() {
    for (width, archive, offset) in [
        (4, 0, u64::from(u32::MAX)),
        (5, 0, (1 << 40) - 1),
        (6, 65_535, u64::from(u32::MAX)),
    ] {
        let settings = settings(2, width);
        let good = Parts {
            key: vec![7; 2],
            size: 5,
            archive,
            offset,
        };
        let mut bytes = vec![7, 7, 0, 0, 0, 5];
        bytes.resize(settings.entry_len(), 0xff);
        assert_eq!(compare_put(settings, &good, 100), Ok(bytes));
        let archive_high = Parts {
            archive: archive + 1,
            ..good.clone()
        };
        let offset_high = Parts {
            offset: offset + 1,
            ..good
        };
        for parts in [archive_high, offset_high] {
            let refused = compare_put(settings, &parts, 100).unwrap_err();
            assert_eq!(refused.reason, Reason::Settings);
        }
    }
}
