//! Files that passed their full check: each call gives what the call on the bytes gives.

mod compare;

use std::ptr;

use compare::refusal_at;
use dwarnizza::chain::Resolved;
use dwarnizza::index::{Entry, Lookup, Page, Settings, Slot, entry_bytes};
use dwarnizza::{Build, Encoding, Envelope, Index, Link, Reason, Root, UncheckedBuild};
use forge::faults::index::{IndexFile, all_settings, keys, random_list};
use forge::random::Random;
use forge::small;

/// Each entry of indexes of every layout, in order, by page and slot, and by its key.
#[test]
fn entries_of_indexes() {
    let mut random = Random::of_test();
    for settings in all_settings() {
        let full = settings.entries_per_page();
        for count in [0, 1, full, full + 1, 2 * full + 7] {
            if count > keys(settings) {
                continue;
            }
            let list = random_list(&mut random, settings, count);
            let file = IndexFile::new(settings, &list).bytes;
            let (index, unchecked) = (Index::check(&file).unwrap(), Index::unchecked(&file));
            assert_eq!(Ok(index.summary()), unchecked.summary());
            assert_eq!(Ok(index.bound()), unchecked.bound());
            assert_eq!(Ok(index.name()), unchecked.name());
            assert!(index.list() == list);
            let mut entries = index.entries();
            for (number, bytes) in (0..count).zip(list.chunks(settings.entry_len())) {
                assert_eq!(entries.len(), count - number);
                let entry = entries.next().expect("the list has it");
                let place = (number / full, number % full);
                assert_eq!((entry.page.0 as usize, entry.slot.0 as usize), place);
                let unchecked = unchecked.entry_at(entry.page, entry.slot);
                assert_eq!(unchecked, Ok(Some(entry)));
                assert_eq!(index.entry_at(entry.page, entry.slot), Some(entry));
                assert!(ptr::eq(entry.key, &file[entry.place..][..entry.key.len()]));
                assert_eq!(file[entry.place..][..bytes.len()], *bytes);
                let found = index.find(entry.key).unwrap().found();
                let found = found.expect("its key is there");
                assert_eq!((found.page, found.slot), (entry.page, entry.slot));
            }
            assert_eq!((entries.len(), entries.next()), (0, None));
            assert_eq!(entries.next(), None);
        }
    }
}

/// The parts of each page, against the second program's layout.
#[test]
fn pages_of_indexes() {
    let mut random = Random::of_test();
    for settings in all_settings() {
        let full = settings.entries_per_page();
        let count = (2 * full + 7).min(keys(settings));
        let list = random_list(&mut random, settings, count);
        let file = IndexFile::new(settings, &list).bytes;
        let index = Index::check(&file).unwrap();
        let mut entries = 0;
        for number in 0..settings.pages(count) {
            let page = Page(number as u32);
            let parts = index.page(page).expect("it has this page");
            assert_eq!(parts.page, number * 4096..(number + 1) * 4096);
            let on_page = index.entries_on(page);
            assert_eq!(on_page.len(), parts.entries);
            assert!(parts.slots().eq(on_page.clone().map(|entry| entry.slot)));
            let skipped = index.entries().skip(entries as usize);
            assert!(on_page.clone().eq(skipped.take(parts.entries)));
            let last = on_page.last().expect("each page has an entry");
            assert_eq!(file[parts.last_key.clone()], *last.key);
            let hash = second::md5::digest(&file[parts.page]).unwrap();
            assert_eq!(file[parts.hash], hash[..8]);
            assert_eq!(parts.first_entry, entries);
            entries += parts.entries as u64;
            let past = Slot(parts.entries as u32);
            assert_eq!(index.entry_at(page, past), None);
        }
        assert_eq!(entries, count as u64);
        let past = Page(settings.pages(count) as u32);
        assert!(index.summary().page_numbers().eq((0..past.0).map(Page)));
        assert_eq!(index.page(past), None);
        assert_eq!(index.entries_on(past).next(), None);
        assert_eq!(index.entry_at(past, Slot(0)), None);
    }
}

#[test]
fn both_kinds_of_lookup() {
    let settings = Settings {
        version: 1,
        offset_width: 6,
        key_length: 1,
    };
    let entries = [(5, 7, 0, 9), (8, 0x0102_0304, 0xa5a6, 0xa7a8_a9aa)];
    let list = entries.map(|(key, size, archive, offset)| {
        entry_bytes(settings, [key], size, archive, offset).unwrap()
    });
    let file = Index::write(settings, &list.concat()).unwrap();
    let index = Index::check(&file).unwrap();
    let found = index.find([8]).unwrap();
    let entry = Entry {
        page: Page(0),
        slot: Slot(1),
        size: 0x0102_0304,
        location: 0xa5a6_a7a8_a9aa,
        compared: 4,
    };
    assert_eq!(found, Lookup::Found(entry));
    assert_eq!((found.found(), found.compared()), (Some(entry), 4));

    let absent = index.find([6]).unwrap();
    assert_eq!(absent, Lookup::Absent { compared: 4 });
    assert_eq!((absent.found(), absent.compared()), (None, 4));
    let refused = refusal_at(Reason::IndexKeyLength, 0);
    assert_eq!(index.find([5, 0]), Err(refused));
}

#[test]
fn parts_of_an_encoding_file() {
    let file = second::encoding::write(&small::encoding_parts());
    let encoding = Encoding::check(&file).unwrap();
    let content = encoding.find_content([0, 5]).unwrap().unwrap();
    assert_eq!((content.size, content.count), (0x01_0203_0405, 2));
    assert!(content.keys().eq([[0xa1], [0xa2]]));
    assert_eq!(encoding.find_content([0, 6]), Ok(None));
    let encoded = encoding.find_encoding([0xa1]).unwrap().unwrap();
    assert_eq!((encoded.spec_number, encoded.size), (1, 0x06_0708_090a));
    assert_eq!(encoding.find_encoding([0xa0]), Ok(None));
    // The same bytes, not only equal ones: header, specs, then first key and MD5 of two pages.
    let keys = 22 + 5 + 2 * (2 + 16) + 8;
    assert!(ptr::eq(content.encoding_keys, &file[keys..keys + 2]));
    assert!(ptr::eq(encoded.spec, encoding.spec(1).unwrap()));
    assert!(ptr::eq(encoded.spec, &file[24..26]));

    let refused = refusal_at(Reason::EncodingKeyLength, 0);
    assert_eq!(encoding.find_content([5]), Err(refused));
    assert_eq!(encoding.find_encoding([0, 5]), Err(refused));
    assert_eq!(encoding.spec(2), Err(refusal_at(Reason::SpecNumber, 0)));
}

#[test]
fn content_of_an_envelope() {
    let file = second::envelope::with_table(&[b"Non".to_vec(), b"Ne".to_vec()]);
    let key = Envelope::key_of(&file).unwrap();
    let envelope = Envelope::check(&file, key).unwrap();
    assert_eq!((envelope.key(), envelope.content_len()), (key, 3));
    assert_eq!(envelope.content(), b"one");
    let mut output = [0xee; 4];
    let refused = refusal_at(Reason::ContentOutputShort, 0);
    assert_eq!(envelope.content_into(&mut output[..2]), Err(refused));
    assert_eq!(output, [0xee; 4]);
    assert_eq!(envelope.content_into(&mut output), Ok(3));
    assert_eq!(output, *b"one\xee");
}

/// Files in which the id 5 is in the index, the id 6 is missing in it, the id 7 in the encoding
/// file and all others in the root file.
fn build_files() -> [Vec<u8>; 3] {
    let settings = Settings {
        version: 1,
        offset_width: 6,
        key_length: 1,
    };
    let list = [0xa4, 0xa5].map(|key| entry_bytes(settings, [key], 7, 3, 9).unwrap());
    let index = Index::write(settings, &list.concat()).unwrap();
    [small::root(), small::encoding(16), index]
}

#[test]
fn records_of_a_root_file() {
    let [file, ..] = build_files();
    let root = Root::check(&file).unwrap();
    let record = root.find(6, 2, 0).expect("it is there");
    assert_eq!(record.key, [0x61; 16]);
    assert_eq!(file[record.place..][..16], record.key);
    for (id, locale, unwanted) in [(4, 2, 0), (6, 1, 0), (6, 2, 4)] {
        assert_eq!(root.find(id, locale, unwanted), None);
    }
}

#[test]
fn the_chain_through_checked_files() {
    let files = build_files();
    let [root, encoding, index] = &files;
    let build = Build {
        root: Root::check(root).unwrap(),
        encoding: Encoding::check(encoding).unwrap(),
        index: Index::check(index).unwrap(),
    };
    let unchecked = UncheckedBuild {
        root,
        encoding,
        index,
    };
    let entry = Entry {
        page: Page(0),
        slot: Slot(1),
        size: 7,
        location: 0x3_0000_0009,
        compared: 4,
    };
    let found = build.resolve(5, 2, 0).unwrap();
    assert_eq!(found, Resolved::Found(entry));
    assert_eq!(found.found(), Some(entry));
    assert_eq!(unchecked.resolve(5, 2, 0), Ok(found));
    for (id, link, compared) in [
        (4, Link::Root, 0),
        (7, Link::Encoding, 0),
        (6, Link::Index, 1),
    ] {
        let absent = build.resolve(id, 2, 0).unwrap();
        assert_eq!(absent, Resolved::Absent { link, compared });
        assert_eq!(absent.found(), None);
        assert_eq!(unchecked.resolve(id, 2, 0), Ok(absent));
    }
}
