//! The lookup in archive indexes and its bound: the library against the second program, which has
//! its own halving and its own plain reading.

mod compare;

use compare::{in_library_entry, in_library_terms, reason, refusal_at};
use dwarnizza::index::{Entry, Lookup, Page, Slot};
use dwarnizza::{Reason, Refusal};
use forge::faults::flip;
use forge::faults::index::{
    COUNT, FOOTER_HASH, Fault, HASH_LENGTH, IndexFile, VERSION, all_settings, beside, counted_list,
    keys, neighbour_lists, random_list, settings,
};
use forge::random::Random;
use second::index::{FOOTER, Index, MOST_ENTRIES, Settings};

/// What a lookup gives.
type Answer = Result<Lookup, Refusal>;

fn absent(compared: u32) -> Answer {
    Ok(Lookup::Absent { compared })
}

/// The refusals of a lookup name no place.
fn refused(reason: Reason) -> Refusal {
    refusal_at(reason, 0)
}

/// The lookup by the library.
fn lookup(file: &[u8], key: &[u8]) -> Answer {
    dwarnizza::Index::unchecked(file).find(key)
}

/// The bound by the library.
fn bound(file: &[u8]) -> Result<u32, Refusal> {
    dwarnizza::Index::unchecked(file).bound()
}

/// The lookup by the second program.
fn second_lookup(file: &[u8], key: &[u8]) -> Answer {
    let second::index::Lookup { found, compared } =
        second::index::lookup(file, key).map_err(in_library_terms)?;
    Ok(match found {
        Some(found) => Lookup::Found(in_library_entry(found, compared)),
        None => Lookup::Absent { compared },
    })
}

/// The lookup by the library, after seeing that the second program gives the same.
#[track_caller]
fn compare(file: &[u8], key: &[u8]) -> Answer {
    let answer = second_lookup(file, key);
    assert_eq!(lookup(file, key), answer, "the key is {key:02x?}");
    answer
}

/// The bound by the library, after seeing that the second program gives the same.
#[track_caller]
fn compare_bound(file: &[u8]) -> Result<u32, Refusal> {
    let answer = second::index::bound(file).map_err(in_library_terms);
    assert_eq!(bound(file), answer);
    answer
}

/// The plain reading of a file that passes the opening checks. It makes no count, so it is given
/// one.
fn plain_reading(file: &[u8], key: &[u8], compared: u32) -> Lookup {
    let index = Index::open(file).expect("the file passes the opening checks");
    match index.plain_reading(key) {
        Some(found) => Lookup::Found(in_library_entry(found, compared)),
        None => Lookup::Absent { compared },
    }
}

/// Looks a key up in an index that passes the full check: besides, the plain reading agrees, and
/// the bound is kept.
#[track_caller]
fn compare_checked(file: &[u8], key: &[u8]) -> Lookup {
    let answer = compare(file, key).expect("the index is good");
    let compared = answer.compared();
    assert_eq!(answer, plain_reading(file, key, compared));
    assert!(compared <= bound(file).expect("the index is good"));
    answer
}

/// A key of this number.
fn key(settings: Settings, number: u8) -> Vec<u8> {
    let mut key = vec![0; settings.key_len()];
    key[settings.key_len() - 1] = number;
    key
}

#[test]
fn m4_one_entry() {
    let settings = settings(1, 4);
    let one = IndexFile::new(settings, &[5, 0, 0, 0, 7, 0, 0, 0, 9]).bytes;
    let entry = Entry {
        page: Page(0),
        slot: Slot(0),
        size: 7,
        location: 9,
        compared: 3,
    };
    assert_eq!(compare(&one, &[5]), Ok(Lookup::Found(entry)));
    assert_eq!(compare(&one, &[4]), absent(3));
    assert_eq!(compare(&one, &[6]), absent(1));
    assert_eq!(
        compare(&IndexFile::new(settings, &[]).bytes, &[5]),
        absent(0)
    );
    for byte in 0..=u8::MAX {
        compare_checked(&one, &[byte]);
    }
}

/// Each key of each index and the keys beside it: each entry is found where it stands with what it
/// says. At the start and the end of each page the plain reading is asked too.
#[test]
fn every_layout() {
    let mut random = Random::of_test();
    let (mut found, mut missing) = (0, 0);
    for settings in all_settings() {
        let full = settings.entries_per_page();
        let counts = [0, 1, 2, full - 1, full, full + 1, 2 * full, 3 * full + 7];
        for entries in counts.into_iter().filter(|&n| n <= keys(settings)) {
            let list = random_list(&mut random, settings, entries);
            let file = IndexFile::new(settings, &list).bytes;
            let bound = compare_bound(&file).expect("the index is good");
            let mut seek = |key: &[u8], at_edge: bool| {
                let answer = match at_edge {
                    true => compare_checked(&file, key),
                    false => compare(&file, key).expect("the index is good"),
                };
                assert!(answer.compared() <= bound);
                match answer {
                    Lookup::Found(_) => found += 1,
                    Lookup::Absent { .. } => missing += 1,
                }
                answer
            };
            seek(&vec![0; settings.key_len()], true);
            seek(&vec![0xff; settings.key_len()], true);
            for (number, bytes) in list.chunks(settings.entry_len()).enumerate() {
                let (page, slot) = (number / full, number % full);
                let at_edge = slot == 0 || slot == full - 1 || number == entries - 1;
                let key = &bytes[..settings.key_len()];
                let entry = seek(key, at_edge).found().expect("the key is there");
                assert_eq!(entry.page, Page(page as u32));
                assert_eq!(entry.slot, Slot(slot as u32));
                expect_to_say(entry, &bytes[settings.key_len()..]);
                seek(&beside(key, -1), at_edge);
                seek(&beside(key, 1), at_edge);
            }
        }
    }
    println!("{found} found, {missing} absent");
    assert!(found > 0 && missing > 0);
}

/// The entry says what these bytes of it after its key do.
#[track_caller]
fn expect_to_say(entry: Entry, bytes: &[u8]) {
    let (size, location) = bytes.split_at(4);
    assert_eq!(entry.size.to_be_bytes(), size);
    let mut wide = [0; 8];
    wide[8 - location.len()..].copy_from_slice(location);
    assert_eq!(entry.location.to_be_bytes(), wide);
}

/// All keys of one and of two bytes in indexes of one page and of several.
#[test]
fn every_key() {
    let mut random = Random::of_test();
    let one = settings(1, 5);
    for entries in [0, 1, 2, 3, 100, 255, 256] {
        let file = IndexFile::random(&mut random, one, entries).bytes;
        for byte in 0..=u8::MAX {
            compare_checked(&file, &[byte]);
        }
    }
    let two = settings(2, 6);
    let file = IndexFile::random(&mut random, two, 5 * two.entries_per_page() + 3).bytes;
    for key in 0..=u16::MAX {
        compare_checked(&file, &key.to_be_bytes());
    }
}

#[test]
fn the_zero_key_is_a_key() {
    for settings in all_settings() {
        let zero = key(settings, 0);
        let with = IndexFile::new(settings, &counted_list(settings, 3)).bytes;
        let entry = compare_checked(&with, &zero).found();
        assert_eq!(entry.map(|entry| entry.slot), Some(Slot(0)));
        // Without it, padding is no key of zeros.
        let list = counted_list(settings, 3);
        let without = IndexFile::new(settings, &list[settings.entry_len()..]).bytes;
        assert_eq!(compare_checked(&without, &zero).found(), None);
    }
}

/// Two neighbours that differ in one byte only, at each place of the key, as unsigned bytes.
#[test]
fn keys_are_compared_whole_and_unsigned() {
    for settings in all_settings() {
        for list in neighbour_lists(settings) {
            let file = IndexFile::new(settings, &list).bytes;
            for (slot, entry) in (0..).zip(list.chunks(settings.entry_len())) {
                let key = &entry[..settings.key_len()];
                let entry = compare_checked(&file, key).found();
                assert_eq!(entry.map(|entry| entry.slot), Some(Slot(slot)));
                compare_checked(&file, &beside(key, 1));
                compare_checked(&file, &beside(key, -1));
            }
        }
    }
}

/// A list whose keys have one of sixteen beginnings of eight bytes, so that these tell few of them
/// apart.
fn list_of_few_beginnings(random: &mut Random, settings: Settings, entries: usize) -> Vec<u8> {
    let mut list = random_list(random, settings, entries);
    let mut entries: Vec<_> = list.chunks_mut(settings.entry_len()).collect();
    for entry in &mut entries {
        entry[..8].fill(0x77 + random.up_to(15) as u8);
    }
    entries.sort_unstable();
    entries.dedup_by(|a, b| a[..settings.key_len()] == b[..settings.key_len()]);
    entries.concat()
}

/// Many keys with the same first eight bytes, in order and in none.
#[test]
fn keys_that_share_their_first_eight_bytes() {
    let mut random = Random::of_test();
    for key_length in 9..=16 {
        let settings = settings(key_length, 4);
        let entries = 9 * settings.entries_per_page();
        let list = list_of_few_beginnings(&mut random, settings, entries);
        let mut file = IndexFile::new(settings, &list);
        let keys: Vec<_> = list
            .chunks(settings.entry_len())
            .map(|entry| &entry[..settings.key_len()])
            .collect();
        for key in &keys {
            assert!(compare_checked(&file.bytes, key).found().is_some());
            compare_checked(&file.bytes, &beside(key, 1));
        }
        for number in 0..keys.len() {
            let other = random.up_to(keys.len() - 1);
            file.key(number).copy_from_slice(keys[other]);
        }
        for key in keys {
            compare(&file.bytes, key).expect("the index opens");
        }
    }
}

/// The bound goes by a full page's entry count, also where no page is full.
#[test]
fn the_bound() {
    // A full page holds 170 entries, of 8 binary digits.
    let wide = settings(16, 4);
    for (entries, most) in [
        (0, 9),
        (1, 10),
        (170, 10),
        (171, 11),
        (340, 11),
        (341, 11),
        (511, 12),
        (1190, 12),
        (1191, 13),
    ] {
        let file = IndexFile::new(wide, &counted_list(wide, entries)).bytes;
        assert_eq!(compare_bound(&file), Ok(most), "{entries} entries");
    }
    // And 455, of 9.
    let narrow = IndexFile::new(settings(1, 4), &[5, 0, 0, 0, 7, 0, 0, 0, 9]);
    assert_eq!(compare_bound(&narrow.bytes), Ok(11));
}

/// The first key of an index whose first page is full takes as many comparisons as the bound says.
#[test]
fn the_bound_is_met() {
    for settings in all_settings().filter(|settings| settings.key_length > 1) {
        let full = settings.entries_per_page();
        for entries in [full, full + 1, 2 * full + 1, 4 * full, 8 * full + 5] {
            let file = IndexFile::new(settings, &counted_list(settings, entries)).bytes;
            let first = compare_checked(&file, &key(settings, 0));
            assert!(first.found().is_some());
            assert_eq!(Ok(first.compared()), compare_bound(&file));
        }
    }
}

/// What the full check refuses the file with; it passes the opening checks.
#[track_caller]
fn fails_with(file: &[u8]) -> Reason {
    let reason = reason(second::index::check(file).expect_err("this fails").number);
    assert!(reason > Reason::IndexLength, "refused {reason:?}");
    assert_eq!(dwarnizza::Index::check(file).unwrap_err().reason, reason);
    reason
}

/// The slot of a key that is found, and the count.
#[track_caller]
fn slot_and_count(answer: Answer) -> (u32, u32) {
    let entry = answer
        .expect("it is answered")
        .found()
        .expect("it is found");
    (entry.slot.0, entry.compared)
}

/// Keys 10, 20, .. 60.
fn six() -> IndexFile {
    let settings = settings(1, 4);
    let mut list = counted_list(settings, 6);
    for (entry, key) in list
        .chunks_mut(settings.entry_len())
        .zip((10..).step_by(10))
    {
        entry[0] = key;
    }
    IndexFile::new(settings, &list)
}

/// Wrong last keys lead to no slot, or to no page.
#[test]
fn wrong_last_keys() {
    let mut high = six();
    high.last_key(0)[0] = 90;
    assert_eq!(fails_with(&high.bytes), Reason::LastKey);
    // The page is chosen; then slots 3 and 5, and none is left.
    for key in [61, 70, 90] {
        assert_eq!(compare(&high.bytes, &[key]), absent(3));
    }
    assert_eq!(compare(&high.bytes, &[91]), absent(1));
    // Slots 3, 5, 4, and 5 once more.
    assert_eq!(slot_and_count(compare(&high.bytes, &[60])), (5, 5));

    let mut low = six();
    low.last_key(0)[0] = 25;
    assert_eq!(fails_with(&low.bytes), Reason::LastKey);
    assert_eq!(slot_and_count(compare(&low.bytes, &[20])), (1, 5));
    for key in [26, 30, 60] {
        assert_eq!(compare(&low.bytes, &[key]), absent(1));
    }
    assert_eq!(
        plain_reading(&low.bytes, &[30], 0)
            .found()
            .map(|entry| entry.slot),
        Some(Slot(2))
    );
}

/// Keys out of order in a page: the halving misses some, and finds the first of equal ones.
#[test]
fn keys_out_of_order() {
    let mut file = six();
    file.key(0)[0] = 35;
    file.fix_page_hash(0);
    assert_eq!(fails_with(&file.bytes), Reason::IndexOrder);
    // The last key, then slots 3, 1, 2, and 3 once more.
    assert_eq!(compare(&file.bytes, &[35]), absent(5));
    assert_eq!(
        plain_reading(&file.bytes, &[35], 0)
            .found()
            .map(|entry| entry.slot),
        Some(Slot(0))
    );
    assert_eq!(slot_and_count(compare(&file.bytes, &[30])), (2, 5));
    // Slots 3, 1, 0, and 0 once more.
    assert_eq!(compare(&file.bytes, &[10]), absent(5));

    let mut equal = six();
    for number in 1..5 {
        equal.key(number)[0] = 20;
    }
    equal.fix_page_hash(0);
    assert_eq!(fails_with(&equal.bytes), Reason::IndexOrder);
    // Slots 3, 1 and 0.
    assert_eq!(slot_and_count(compare(&equal.bytes, &[20])), (1, 5));
}

/// Two of three pages exchanged, with their last keys and hashes.
#[test]
fn pages_out_of_order() {
    let settings = settings(16, 4);
    let list = counted_list(settings, 510);
    let (first, rest) = list.split_at(170 * settings.entry_len());
    let (second, third) = rest.split_at(170 * settings.entry_len());
    let file = IndexFile::new(settings, &[second, first, third].concat()).bytes;
    assert_eq!(fails_with(&file), Reason::IndexOrder);
    let number = |number: u128| number.to_be_bytes();
    // Last keys 1 and 0, eight halvings to slot 0, and that once more.
    assert_eq!(compare(&file, &number(5)), absent(11));
    // Last keys 1 and 2, and the same on the last page.
    assert_eq!(compare(&file, &number(175)), absent(11));
    // Last keys 1 and 2, slots 85, 42, 21, 10, 5, 2, 4, and 5 once more.
    assert_eq!(slot_and_count(compare(&file, &number(345))), (5, 10));
    // Last keys 1 and 2, and no page.
    assert_eq!(compare(&file, &number(510)), absent(2));
    for sought in [5, 175, 345] {
        let entry = plain_reading(&file, &number(sought), 0).found();
        assert_eq!(entry.map(|entry| entry.slot), Some(Slot(5)));
    }
    for sought in 0..=510 {
        compare(&file, &number(sought)).expect("it is answered");
    }
}

/// Page hashes, padding and the contents hash are nothing to a lookup.
#[test]
fn what_is_not_looked_at() {
    let mut random = Random::of_test();
    for settings in [settings(16, 4), settings(2, 5), settings(9, 6)] {
        let full = settings.entries_per_page();
        let list = random_list(&mut random, settings, 2 * full + 20);
        let good = IndexFile::new(settings, &list);
        let mut spoilt = vec![good.clone()];
        flip(&mut random, &mut spoilt[0].footer()[..VERSION]);
        for page in 0..good.pages() {
            for fault in [Fault::PageHash(page), Fault::Padding(page)] {
                let mut file = good.clone();
                file.put_faults(&mut random, &[fault]);
                fails_with(&file.bytes);
                spoilt.push(file);
            }
        }
        for file in &spoilt {
            assert_eq!(compare_bound(&file.bytes), bound(&good.bytes));
            for entry in list.chunks(settings.entry_len()) {
                for step in [-1, 0, 1] {
                    let key = beside(&entry[..settings.key_len()], step);
                    assert_eq!(compare(&file.bytes, &key), lookup(&good.bytes, &key));
                }
            }
        }
    }
}

/// The sought key is never cut and never filled up.
#[test]
fn wrong_key_lengths() {
    let refused = Err(refused(Reason::IndexKeyLength));
    for settings in all_settings() {
        let length = settings.key_len();
        for entries in [0, 1, 40] {
            let file = IndexFile::new(settings, &counted_list(settings, entries)).bytes;
            let lengths = (0..=20).chain([length - 1, length + 1, 4096]);
            for wrong in lengths.filter(|&wrong| wrong != length) {
                // What stays of a key that is there, and one with zeros after it or before it.
                let mut sought = key(settings, 0);
                sought.resize(wrong, 0);
                assert_eq!(compare(&file, &sought), refused);
                let mut sought = key(settings, 1);
                sought.resize(wrong, 0);
                assert_eq!(compare(&file, &sought), refused);
                let mut sought = vec![0; wrong];
                if let Some(last) = sought.last_mut() {
                    *last = 1;
                }
                assert_eq!(compare(&file, &sought), refused);
            }
        }
    }
}

/// The opening checks come one after the other, for keys of every length, and before 10.
#[test]
fn the_order_of_refusals() {
    #[track_caller]
    fn expect(file: &[u8], reason: Reason, place: usize) {
        let refused = refusal_at(reason, place);
        for length in [0, 1, 15, 16, 17] {
            assert_eq!(compare(file, &vec![0; length]), Err(refused));
        }
        assert_eq!(compare_bound(file), Err(refused));
    }
    let mut random = Random::of_test();
    let mut file = IndexFile::random(&mut random, settings(16, 4), 171);
    assert_eq!(
        compare(&file.bytes, &[0; 15]),
        Err(refused(Reason::IndexKeyLength))
    );
    file.set_count(341);
    expect(&file.bytes, Reason::IndexLength, 0);
    file.set_count(8_388_608);
    expect(&file.bytes, Reason::IndexLength, 0);
    file.set_count(8_388_609);
    expect(&file.bytes, Reason::EntryCount, 0);
    flip(&mut random, &mut file.footer()[FOOTER_HASH]);
    expect(&file.bytes, Reason::FooterHash, 0);
    file.footer()[HASH_LENGTH] = 16;
    expect(&file.bytes, Reason::FooterHashLength, HASH_LENGTH);
    file.footer()[VERSION] = 2;
    expect(&file.bytes, Reason::FooterVersion, VERSION);
    let start = file.bytes.len() - FOOTER;
    expect(&file.bytes[start..], Reason::FooterVersion, VERSION);
    expect(&file.bytes[start + 1..], Reason::IndexShort, 0);
    expect(&[], Reason::IndexShort, 0);
}

/// All 256 values of each field of the footer and of its count, with the footer hash right and
/// wrong.
#[test]
fn footers() {
    let mut random = Random::of_test();
    let good = IndexFile::random(&mut random, settings(16, 4), 1);
    for field in VERSION..COUNT.end {
        for value in 0..=u8::MAX {
            let mut file = good.clone();
            file.footer()[field] = value;
            file.fix_footer_hash();
            for length in [1, 16] {
                let _ = compare(&file.bytes, &vec![7; length]);
            }
            let _ = compare_bound(&file.bytes);
            flip(&mut random, &mut file.footer()[FOOTER_HASH]);
            assert!(compare(&file.bytes, &[7; 16]).is_err());
            assert!(compare_bound(&file.bytes).is_err());
        }
    }
}

/// As many entries as an index may have, all of zeros, and one more.
#[test]
fn the_limit_of_entries() {
    let settings = settings(1, 4);
    let file = |entries: usize| {
        let mut footer = IndexFile::new(settings, &[]);
        footer.set_count(entries as u32);
        let mut bytes = vec![0; settings.file_len(entries)];
        let start = bytes.len() - FOOTER;
        bytes[start..].copy_from_slice(footer.footer());
        bytes
    };
    let most = file(MOST_ENTRIES);
    // 18,437 pages of 455 entries: 15, 9 and 1.
    assert_eq!(compare_bound(&most), Ok(25));
    assert_eq!(slot_and_count(compare(&most, &[0])), (0, 25));
    // Half of 18,437 and one fewer stays each time: 9218, 4608, 2303, .. 1.
    assert_eq!(compare(&most, &[1]), absent(14));
    let more = file(MOST_ENTRIES + 1);
    assert_eq!(compare(&more, &[0]), Err(refused(Reason::EntryCount)));
    assert_eq!(compare_bound(&more), Err(refused(Reason::EntryCount)));
}
