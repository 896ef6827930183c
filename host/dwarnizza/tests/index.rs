//! Archive indexes by the library against the second program.

mod compare;
mod raw;

use std::ops::RangeInclusive;

use compare::{compare_outputs, in_library_settings, in_library_terms, refusal_at};
use dwarnizza::index::{CheckedIndex, Summary};
use dwarnizza::{Index, Reason, Refusal};
use forge::faults::flip;
use forge::faults::index::{
    COUNT, FOOTER_HASH, Fault, HASH_LENGTH, IndexFile, VERSION, all_settings, counted_list, keys,
    neighbour_lists, random_list, settings,
};
use forge::random::Random;
use second::index::{FOOTER, MOST_ENTRIES, PAGE};

/// What the full check gives.
type Answer = Result<Summary, Refusal>;

fn refused(reason: Reason, place: usize) -> Answer {
    Err(refusal_at(reason, place))
}

/// The full check by the library.
fn check(file: &[u8]) -> Answer {
    Index::check(file).map(CheckedIndex::summary)
}

/// The full check by the second program.
fn second_check(file: &[u8]) -> Answer {
    let index = second::index::check(file).map_err(in_library_terms)?;
    Ok(summary_of(&index))
}

/// The opening checks and what the footer says, by the second program.
fn second_summary(file: &[u8]) -> Answer {
    let index = second::index::Index::open(file).map_err(in_library_terms)?;
    Ok(summary_of(&index))
}

fn summary_of(index: &second::index::Index<'_>) -> Summary {
    Summary {
        settings: in_library_settings(index.settings()),
        entries: index.entries(),
        pages: index.pages(),
    }
}

/// How long the list of a file is that passes.
fn list_len(file: &[u8]) -> Option<usize> {
    Some(second::index::check(file).ok()?.list_len())
}

/// The list by the library into an output of this size, compared with the second program's.
#[track_caller]
fn compare_list(file: &[u8], room: usize) -> Result<Vec<u8>, Refusal> {
    compare_outputs(
        room,
        |output| raw::list(file, output),
        |output| second::index::list(file, output).map_err(in_library_terms),
    )
}

/// Both programs give this answer to the full check, and list the file into outputs of all kinds.
#[track_caller]
fn expect(file: &[u8], answer: Answer) {
    assert_eq!(second_check(file), answer);
    assert_eq!(check(file), answer);
    assert_eq!(Index::unchecked(file).summary(), second_summary(file));
    let length = list_len(file).unwrap_or(100);
    for room in [length.saturating_sub(1), length, length + 1, length + 1000] {
        let expected = match answer {
            Ok(_) if room < length => Err(Reason::OutputShort),
            Ok(_) => Ok(length),
            Err(refusal) => Err(refusal.reason),
        };
        let listed = compare_list(file, room);
        let listed = listed.map(|list| list.len());
        assert_eq!(listed.map_err(|refusal| refusal.reason), expected);
    }
}

/// Both programs pass this file and say of it what it was made with.
#[track_caller]
fn expect_good(file: &IndexFile) {
    let summary = Summary {
        settings: in_library_settings(file.settings),
        entries: file.entries,
        pages: file.pages(),
    };
    expect(&file.bytes, Ok(summary));
}

#[track_caller]
fn expect_refused(file: &[u8], reason: Reason, place: usize) {
    expect(file, refused(reason, place));
}

#[test]
fn good_files_of_every_layout() {
    let mut random = Random::of_test();
    for settings in all_settings() {
        let full = settings.entries_per_page();
        let counts = [0, 1, full - 1, full, full + 1, 2 * full, 5 * full + 7];
        for entries in counts.into_iter().filter(|&n| n <= keys(settings)) {
            let list = random_list(&mut random, settings, entries);
            let file = IndexFile::new(settings, &list);
            expect_good(&file);
            assert!(compare_list(&file.bytes, list.len()).as_ref() == Ok(&list));

            let mut written = vec![0; file.bytes.len()];
            let length = second::index::write(settings, &list, &mut written);
            assert_eq!(length, Ok(written.len()));
            assert!(written == file.bytes, "the writer makes another file");
        }
    }
}

/// There are only 256 keys of one byte, fewer than a full page holds.
#[test]
fn all_keys_of_one_byte_and_more() {
    for width in 4..=6 {
        let settings = settings(1, width);
        let full = settings.entries_per_page();
        for entries in [255, 256] {
            expect_good(&IndexFile::new(settings, &counted_list(settings, entries)));
        }
        for entries in [257, full - 1, full, full + 1] {
            let file = IndexFile::new(settings, &counted_list(settings, entries));
            expect_refused(&file.bytes, Reason::IndexOrder, 256);
        }
    }
}

#[test]
fn lengths_of_the_marked_examples() {
    let mut random = Random::of_test();
    for (entries, length) in [(0, 28), (1, 4148), (170, 4148), (171, 8268)] {
        let file = IndexFile::random(&mut random, settings(16, 4), entries);
        assert_eq!(file.bytes.len(), length);
        expect_good(&file);
    }
}

#[test]
fn the_zero_key_is_a_key() {
    for settings in all_settings() {
        // Entries of zeros but for the last byte of the key.
        let file = |last_bytes: &[u8]| {
            let mut list = vec![0; last_bytes.len() * settings.entry_len()];
            for (entry, &byte) in list.chunks_mut(settings.entry_len()).zip(last_bytes) {
                entry[settings.key_len() - 1] = byte;
            }
            IndexFile::new(settings, &list)
        };
        expect_good(&file(&[0]));
        expect_good(&file(&[0, 1, 2]));
        expect_refused(&file(&[0, 0]).bytes, Reason::IndexOrder, 1);
        expect_refused(&file(&[1, 2, 0]).bytes, Reason::IndexOrder, 2);
    }
}

/// The reason that refuses the byte at each offset of the footer, and what the byte may be.
const FIELDS: [(usize, Reason, RangeInclusive<u8>); 8] = [
    (8, Reason::FooterVersion, 0..=1),
    (9, Reason::FooterReserved, 0..=0),
    (10, Reason::FooterReserved, 0..=0),
    (11, Reason::FooterPageSize, 4..=4),
    (12, Reason::FooterOffsetWidth, 4..=6),
    (13, Reason::FooterSizeWidth, 4..=4),
    (14, Reason::FooterKeyLength, 1..=16),
    (15, Reason::FooterHashLength, 8..=8),
];

/// All 256 values of each field, with the footer hash right and wrong.
#[test]
fn footer_fields() {
    let mut random = Random::of_test();
    for entries in [0, 1, 200] {
        let good = IndexFile::random(&mut random, settings(16, 4), entries);
        for (at, reason, allowed) in &FIELDS {
            for value in 0..=u8::MAX {
                let mut file = good.clone();
                file.footer()[*at] = value;
                let allowed = allowed.contains(&value);
                file.fix_footer_hash();
                let answer = second_check(&file.bytes);
                assert_eq!(answer == refused(*reason, *at), !allowed);
                expect(&file.bytes, answer);

                flip(&mut random, &mut file.footer()[FOOTER_HASH]);
                let (reason, place) = if allowed {
                    (Reason::FooterHash, 0)
                } else {
                    (*reason, *at)
                };
                expect_refused(&file.bytes, reason, place);
            }
        }
    }
}

/// Every choice of wrong fields: the first of them is told.
#[test]
fn the_first_wrong_field() {
    let mut random = Random::of_test();
    let good = IndexFile::random(&mut random, settings(16, 4), 171);
    for chosen in 1..1_u32 << FIELDS.len() {
        let mut file = good.clone();
        for (row, (at, _, allowed)) in FIELDS.iter().enumerate() {
            if chosen >> row & 1 == 1 {
                file.footer()[*at] = allowed.end() + 1;
            }
        }
        file.fix_footer_hash();
        let (at, reason, _) = &FIELDS[chosen.trailing_zeros() as usize];
        expect_refused(&file.bytes, *reason, *at);
    }
}

#[test]
fn the_footer_hash() {
    let mut random = Random::of_test();
    let good = IndexFile::random(&mut random, settings(9, 5), 3);
    for place in 0..FOOTER {
        for bit in 0..8 {
            let mut file = good.clone();
            file.footer()[place] ^= 1 << bit;
            if place < VERSION {
                // The contents hash is not judged.
                expect_good(&file);
            } else if COUNT.contains(&place) || FOOTER_HASH.contains(&place) {
                expect_refused(&file.bytes, Reason::FooterHash, 0);
            }
        }
    }
}

#[test]
fn the_entry_count_is_little_endian() {
    let mut random = Random::of_test();
    let mut file = IndexFile::random(&mut random, settings(2, 4), 0x0102);
    assert_eq!(file.footer()[COUNT], [2, 1, 0, 0]);
    expect_good(&file);
    file.footer()[COUNT].reverse();
    file.fix_footer_hash();
    expect_refused(&file.bytes, Reason::EntryCount, 0);
}

#[test]
fn the_limit_of_entries() {
    let most = MOST_ENTRIES as u32;
    let mut empty = IndexFile::new(settings(1, 4), &[]);
    for (count, number) in [
        (most - 1, Reason::IndexLength),
        (most, Reason::IndexLength),
        (most + 1, Reason::EntryCount),
        (u32::MAX, Reason::EntryCount),
    ] {
        empty.set_count(count);
        expect_refused(&empty.bytes, number, 0);
        flip(&mut Random::of_test(), &mut empty.footer()[FOOTER_HASH]);
        expect_refused(&empty.bytes, Reason::FooterHash, 0);
    }

    // With the right length: zeros, and a footer.
    for (entries, number) in [
        (MOST_ENTRIES, Reason::IndexPageHash),
        (MOST_ENTRIES + 1, Reason::EntryCount),
    ] {
        empty.set_count(entries as u32);
        let mut bytes = vec![0; empty.settings.file_len(entries)];
        let start = bytes.len() - FOOTER;
        bytes[start..].copy_from_slice(&empty.bytes);
        expect_refused(&bytes, number, 0);
    }
}

/// The start and the end of an index, of every length below its own.
#[test]
fn every_cut() {
    let mut random = Random::of_test();
    let good = IndexFile::random(&mut random, settings(16, 4), 171).bytes;
    for length in 0..good.len() {
        let (start, end) = (&good[..length], &good[good.len() - length..]);
        assert_eq!(check(start), second_check(start));
        assert_eq!(check(end), second_check(end));
        if length < FOOTER {
            assert_eq!(second_check(start), refused(Reason::IndexShort, 0));
            assert_eq!(second_check(end), refused(Reason::IndexShort, 0));
        } else {
            assert!(second_check(start).is_err());
            assert_eq!(second_check(end), refused(Reason::IndexLength, 0));
        }
    }
}

#[test]
fn lengths_beside_the_right_one() {
    let mut random = Random::of_test();
    for entries in [0, 1, 170, 171] {
        let good = IndexFile::random(&mut random, settings(16, 4), entries);
        let (contents, footer) = good.bytes.split_at(good.bytes.len() - FOOTER);
        // Before the footer, or at the start.
        for length in [1, 16, 28, PAGE, PAGE + 16 + 8] {
            let zeros = vec![0; length];
            let file = [contents, &zeros, footer].concat();
            expect_refused(&file, Reason::IndexLength, 0);
            let file = [&zeros, contents, footer].concat();
            expect_refused(&file, Reason::IndexLength, 0);
            if let Some(rest) = contents.len().checked_sub(length) {
                let file = [&contents[..rest], footer].concat();
                expect_refused(&file, Reason::IndexLength, 0);
            }
            // At the end, the footer is no longer the last: some field is wrong.
            let file = [contents, footer, &zeros].concat();
            let refused = second_check(&file);
            assert!(refused.is_err_and(|refused| (102..=108).contains(&refused.number())));
            expect(&file, refused);
        }
    }
}

/// The number of pages stays, and a page's entries end earlier or later.
#[test]
fn another_count_on_the_same_pages() {
    let mut random = Random::of_test();
    for settings in all_settings().filter(|settings| settings.key_length > 1) {
        let full = settings.entries_per_page();
        let mut file = IndexFile::random(&mut random, settings, full + 2);
        file.entry(full + 1).fill(0xff);
        file.fix_page_hash(1);
        file.fix_last_key(1);
        file.set_count(full as u32 + 1);
        expect_refused(&file.bytes, Reason::IndexPadding, 1);
        file.set_count(full as u32 + 3);
        expect_refused(&file.bytes, Reason::IndexOrder, full + 2);
    }
}

/// The opening checks and 6, each with one or more of the next behind it.
#[test]
fn the_order_before_the_pages() {
    let mut random = Random::of_test();
    let mut file = IndexFile::random(&mut random, settings(16, 4), 171);
    file.put_faults(&mut random, &[Fault::PageHash(0), Fault::LastKey(0)]);
    expect_refused(&file.bytes, Reason::IndexPageHash, 0);

    // The length now, with the page hash behind it.
    file.set_count(341);
    expect_refused(&file.bytes, Reason::IndexLength, 0);
    file.set_count(8_388_609);
    expect_refused(&file.bytes, Reason::EntryCount, 0);
    flip(&mut random, &mut file.footer()[FOOTER_HASH]);
    expect_refused(&file.bytes, Reason::FooterHash, 0);
    file.footer()[HASH_LENGTH] = 16;
    expect_refused(&file.bytes, Reason::FooterHashLength, HASH_LENGTH);
    file.footer()[VERSION] = 2;
    expect_refused(&file.bytes, Reason::FooterVersion, VERSION);
    let start = file.bytes.len() - FOOTER;
    expect_refused(&file.bytes[start..], Reason::FooterVersion, VERSION);
    expect_refused(&file.bytes[start + 1..], Reason::IndexShort, 0);
}

/// Each fault of a page or an entry alone and with each other, on three pages.
#[test]
fn the_order_in_the_pages() {
    let mut random = Random::of_test();
    for settings in [settings(16, 4), settings(2, 5), settings(9, 6)] {
        let full = settings.entries_per_page();
        let good = IndexFile::random(&mut random, settings, 2 * full + 20);
        let mut faults = Vec::new();
        for page in 0..3 {
            faults.extend([
                Fault::PageHash(page),
                Fault::Padding(page),
                Fault::LastKey(page),
            ]);
            faults.extend(
                (page * full..)
                    .take(3)
                    .map(Fault::Order)
                    .skip(usize::from(page == 0)),
            );
            faults.push(Fault::Order(good.last_entry(page)));
        }
        for &one in &faults {
            for &other in &faults {
                let mut file = good.clone();
                file.put_faults(&mut random, &[one, other]);
                let first = [one, other]
                    .into_iter()
                    .min_by_key(|&fault| turn(&good, fault))
                    .expect("there are two");
                let (number, place) = reason_and_place(first);
                expect_refused(&file.bytes, number, place);
            }
        }
    }
}

/// The number and place that a fault is refused with.
fn reason_and_place(fault: Fault) -> (Reason, usize) {
    match fault {
        Fault::PageHash(page) => (Reason::IndexPageHash, page),
        Fault::Padding(page) => (Reason::IndexPadding, page),
        Fault::Order(entry) => (Reason::IndexOrder, entry),
        Fault::LastKey(page) => (Reason::LastKey, page),
    }
}

/// When a fault has its turn: by page, then by number, then by entry.
fn turn(file: &IndexFile, fault: Fault) -> (usize, Reason, usize) {
    let (reason, place) = reason_and_place(fault);
    match fault {
        Fault::Order(entry) => (file.page_of(entry), reason, entry),
        Fault::PageHash(page) | Fault::Padding(page) | Fault::LastKey(page) => {
            (page, reason, place)
        }
    }
}

/// Each byte of a stored hash, of a stored last key and of padding counts.
#[test]
fn each_byte_counts() {
    let mut random = Random::of_test();
    let settings = settings(10, 5);
    let entries = 2 * settings.entries_per_page() - 5;
    let good = IndexFile::random(&mut random, settings, entries);
    for page in 0..good.pages() {
        for place in 0..8 {
            let mut file = good.clone();
            file.page_hash(page)[place] ^= 1 << random.up_to(7);
            expect_refused(&file.bytes, Reason::IndexPageHash, page);
        }
        for place in 0..settings.key_len() {
            let mut file = good.clone();
            file.last_key(page)[place] ^= 1 << random.up_to(7);
            expect_refused(&file.bytes, Reason::LastKey, page);
        }
        for place in 0..good.clone().padding(page).len() {
            let mut file = good.clone();
            file.padding(page)[place] ^= 1 << random.up_to(7);
            expect_refused(&file.bytes, Reason::IndexPageHash, page);
            file.fix_page_hash(page);
            expect_refused(&file.bytes, Reason::IndexPadding, page);
        }
    }
}

/// Two neighbours that differ in one byte only, at each place of the key, as unsigned bytes.
#[test]
fn keys_are_compared_whole_and_unsigned() {
    for settings in all_settings() {
        let full = settings.entries_per_page();
        for mut list in neighbour_lists(settings) {
            expect_good(&IndexFile::new(settings, &list));

            let (one, other) = list.split_at_mut(settings.entry_len());
            one.swap_with_slice(other);
            let falling = IndexFile::new(settings, &list);
            expect_refused(&falling.bytes, Reason::IndexOrder, 1);
        }
        // Equal keys with other sizes and locations, on one page and across two.
        for equal in [1, full - 1, full] {
            let mut file = IndexFile::new(settings, &counted_list(settings, full + 1));
            let before = file.key(equal - 1).to_vec();
            file.key(equal).copy_from_slice(&before);
            for page in 0..file.pages() {
                file.fix_last_key(page);
                file.fix_page_hash(page);
            }
            let first = equal.min(keys(settings));
            expect_refused(&file.bytes, Reason::IndexOrder, first);
        }
    }
}
