//! Footers, loose indexes and the parts of a page: the library against the second program.

mod compare;

use compare::{in_library_settings, in_library_terms};
use dwarnizza::index::{Page, Summary};
use dwarnizza::{Index, Refusal};
use forge::faults::index::{IndexFile, all_settings, keys, random_list};
use forge::random::Random;
use second::index::FOOTER;

/// Where the offset width stands in a footer.
const OFFSET_WIDTH: usize = 12;

/// What the footer says by the library, after seeing that the second program gives the same, and
/// how long the file is.
#[track_caller]
fn compare_footer(file: &[u8]) -> Result<u64, Refusal> {
    let footer = Index::unchecked(file).footer();
    let second = second::index::footer(file).map_err(in_library_terms);
    let told = footer.map(|footer| (footer.summary, footer.file_length));
    let expected = second.map(|footer| {
        let summary = Summary {
            settings: in_library_settings(footer.settings),
            entries: footer.entries,
            pages: footer.pages(),
        };
        (summary, footer.file_len() as u64)
    });
    assert_eq!(told, expected);
    assert!(footer.is_err() || footer.is_ok_and(|footer| footer.footer_length == FOOTER));
    told.map(|(_, length)| length)
}

/// Whether the footer is that of a loose index, by both programs.
#[track_caller]
fn compare_loose(file: &[u8]) -> bool {
    let loose = Index::unchecked(file).is_loose();
    assert_eq!(loose, second::index::is_loose(file));
    loose
}

/// Whether there is such a page, after seeing that both programs tell the same parts of it.
#[track_caller]
fn compare_page(file: &[u8], page: u32) -> Result<bool, Refusal> {
    let parts = Index::unchecked(file).page(Page(page));
    let second = second::index::page(file, page.into()).map_err(in_library_terms);
    match (&parts, &second) {
        (Ok(Some(parts)), Ok(Some(second))) => {
            assert_eq!(parts.page, second.page);
            assert_eq!(parts.last_key, second.last_key);
            assert_eq!(parts.hash, second.hash);
            assert_eq!(parts.first_entry, second.entries.start as u64);
            assert_eq!(parts.entries, second.entries.len());
        }
        _ => {
            let absent = second.map(|parts| parts.is_some());
            assert_eq!(parts.clone().map(|parts| parts.is_some()), absent);
        }
    }
    parts.map(|parts| parts.is_some())
}

/// Every page of files of every layout, and footers by ever fewer of the last bytes.
#[test]
fn every_layout() {
    let mut random = Random::of_test();
    for settings in all_settings() {
        let full = settings.entries_per_page();
        for entries in [0, 1, full, full + 1, 3 * full + 7] {
            let entries = entries.min(keys(settings));
            let list = random_list(&mut random, settings, entries);
            let file = IndexFile::new(settings, &list).bytes;
            for page in 0..settings.pages(entries) as u32 {
                assert_eq!(compare_page(&file, page), Ok(true));
            }
            for past in [settings.pages(entries) as u32, u32::MAX] {
                assert_eq!(compare_page(&file, past), Ok(false));
            }
            for left in [
                file.len(),
                file.len() - 1,
                FOOTER + 1,
                FOOTER,
                FOOTER - 1,
                0,
            ] {
                let told = compare_footer(&file[file.len().saturating_sub(left)..]);
                assert_eq!(told.is_ok(), left >= FOOTER.min(file.len()));
                assert!(told.is_err() || told == Ok(file.len() as u64));
            }
            assert!(!compare_loose(&file));
        }
    }
}

/// The footer of a loose index, and each byte of it changed, with the hash right and wrong.
#[test]
fn loose_indexes() {
    let mut random = Random::of_test();
    for settings in all_settings() {
        let mut loose = IndexFile::random(&mut random, settings, 5.min(keys(settings)));
        loose.footer()[OFFSET_WIDTH] = 0;
        assert!(!compare_loose(&loose.bytes));
        loose.fix_footer_hash();
        assert!(compare_loose(&loose.bytes));
        assert!(compare_loose(loose.footer()));
        for at in 0..FOOTER {
            let mut other = loose.clone();
            other.footer()[at] ^= 1 << random.up_to(7);
            compare_loose(&other.bytes);
            other.fix_footer_hash();
            compare_loose(&other.bytes);
        }
    }
}
