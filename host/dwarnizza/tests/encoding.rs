//! Encoding files: the library against the second program.

mod compare;

use std::ops::Range;
use std::ptr;

use compare::{Tally, in_library_terms, refusal_at};
use dwarnizza::encoding::{ContentEntry, EncodingEntry};
use dwarnizza::{Encoding, Reason, Refusal};
use forge::faults::encoding::{BOTH, EncodingFile, Fault, Kind};
use forge::faults::index::beside;
use forge::random::Random;
use second::encoding::{HEADER, PADDING, Parts, TableParts, write};

/// The full check by the library, after seeing that the second program gives the same.
#[track_caller]
fn compare_check(file: &[u8]) -> Result<(), Refusal> {
    let answer = second::encoding::check(file).map_err(in_library_terms);
    assert_eq!(Encoding::check(file).map(|_| ()), answer);
    answer
}

/// The lookup of a content key by the library, after seeing that the second program gives the same:
/// the same values, and the same part of the file.
#[track_caller]
fn compare_content<'a>(file: &'a [u8], key: &[u8]) -> Result<Option<ContentEntry<'a>>, Refusal> {
    let answer = second::encoding::find_content(file, key).map_err(in_library_terms);
    let answer = answer.map(|found| {
        found.map(|entry| ContentEntry {
            size: entry.size,
            count: entry.count,
            encoding_keys: entry.encoding_keys,
        })
    });
    let by_library = Encoding::unchecked(file).find_content(key);
    assert_eq!(by_library, answer, "the key is {key:02x?}");
    if let (Ok(Some(one)), Ok(Some(other))) = (by_library, answer) {
        assert!(ptr::eq(one.encoding_keys, other.encoding_keys));
    }
    answer
}

/// The same for an encoding key.
#[track_caller]
fn compare_encoding<'a>(file: &'a [u8], key: &[u8]) -> Result<Option<EncodingEntry<'a>>, Refusal> {
    let answer = second::encoding::find_encoding(file, key).map_err(in_library_terms);
    let answer = answer.map(|found| {
        found.map(|(entry, spec)| EncodingEntry {
            spec_number: entry.spec_number,
            size: entry.size,
            spec,
        })
    });
    let by_library = Encoding::unchecked(file).find_encoding(key);
    assert_eq!(by_library, answer, "the key is {key:02x?}");
    if let (Ok(Some(one)), Ok(Some(other))) = (by_library, answer) {
        assert!(ptr::eq(one.spec, other.spec));
    }
    answer
}

/// The same for the spec with a number.
#[track_caller]
fn compare_spec(file: &[u8], number: u32) -> Result<&[u8], Refusal> {
    let answer = second::encoding::spec(file, number).map_err(in_library_terms);
    let by_library = Encoding::unchecked(file).spec(number);
    assert_eq!(by_library, answer, "the number is {number}");
    if let (Ok(one), Ok(other)) = (by_library, answer) {
        assert!(ptr::eq(one, other));
    }
    answer
}

/// Looks a key of this kind up, and tells whether it is found.
#[track_caller]
fn compare_lookup(file: &[u8], kind: Kind, key: &[u8]) -> Result<bool, Refusal> {
    Ok(match kind {
        Kind::Content => compare_content(file, key)?.is_some(),
        Kind::Encoding => compare_encoding(file, key)?.is_some(),
    })
}

/// A file of few pages by hand.
fn small(specs: &[u8], content: TableParts, encoding: TableParts) -> Vec<u8> {
    write(&Parts {
        specs: specs.to_vec(),
        content,
        encoding,
        own_spec: b"own".to_vec(),
    })
}

/// Pages of 1 KB with keys of one byte.
fn pages(pages: &[&[u8]]) -> TableParts {
    TableParts {
        key_size: 1,
        page_kb: 1,
        pages: pages.iter().map(|page| page.to_vec()).collect(),
    }
}

/// The content entry of a key with one encoding key.
fn content(key: u8) -> [u8; 8] {
    [1, 0, 0, 0, 0, key, key, 0xe0]
}

/// The encoding entry of a key.
fn encoding(key: u8, spec_number: u32) -> [u8; 10] {
    let [a, b, c, d] = spec_number.to_be_bytes();
    [key, a, b, c, d, 0, 0, 0, 0, key]
}

#[test]
fn m12_specs_by_number() {
    let file = small(b"n\0z\0", pages(&[&content(5)]), pages(&[&encoding(5, 1)]));
    assert_eq!(compare_check(&file), Ok(()));
    assert_eq!(compare_spec(&file, 0), Ok(&b"n"[..]));
    assert_eq!(compare_spec(&file, 1), Ok(&b"z"[..]));
    let past = Err(refusal_at(Reason::SpecNumber, 0));
    assert_eq!(compare_spec(&file, 2), past);
}

/// A table of many specs, empty ones too, and a table of one.
#[test]
fn specs() {
    let strings: Vec<_> = (0..3000).map(|number| vec![b'a'; number % 7]).collect();
    let table: Vec<u8> = strings
        .iter()
        .flat_map(|string| [string, &[0][..]].concat())
        .collect();
    let file = small(&table, pages(&[&content(5)]), pages(&[&encoding(5, 2999)]));
    assert_eq!(compare_check(&file), Ok(()));
    for (number, string) in (0..).zip(&strings) {
        assert_eq!(compare_spec(&file, number), Ok(&string[..]));
    }
    let past = Err(refusal_at(Reason::SpecNumber, 0));
    for number in [3000, 3001, 1 << 31, u32::MAX] {
        assert_eq!(compare_spec(&file, number), past);
    }
    let file = small(b"\0", pages(&[&content(5)]), pages(&[&encoding(5, 0)]));
    assert_eq!(compare_spec(&file, 0), Ok(&b""[..]));
    assert_eq!(compare_spec(&file, 1), past);
    let spec = compare_encoding(&file, &[5]).unwrap().unwrap().spec;
    assert!(ptr::eq(spec, &file[HEADER..HEADER]));
}

/// Each content entry of a good file is found where it stands, with what it says.
fn expect_content_entries(file: &EncodingFile) {
    let bytes = &file.bytes[..];
    for number in 0..file.entries(Kind::Content).len() {
        let key = file.key(Kind::Content, number);
        let entry = file.entry(Kind::Content, number);
        let found = compare_content(bytes, &bytes[key.clone()]).unwrap();
        let found = found.expect("the key is there");
        let size = &bytes[entry.start + 1..key.start];
        assert_eq!(found.count, bytes[entry.start]);
        assert_eq!(found.size.to_be_bytes()[3..], *size);
        assert!(ptr::eq(found.encoding_keys, &bytes[key.end..entry.end]));
        assert_eq!(found.keys().len(), usize::from(found.count));
    }
}

/// Each encoding entry of a good file is found, with what it says and the spec of its number.
fn expect_encoding_entries(file: &EncodingFile) {
    let bytes = &file.bytes[..];
    for number in 0..file.entries(Kind::Encoding).len() {
        let key = &bytes[file.key(Kind::Encoding, number)];
        let field = file.spec_number(number);
        let found = compare_encoding(bytes, key).unwrap();
        let found = found.expect("the key is there");
        assert_eq!(found.spec_number.to_be_bytes(), bytes[field.clone()]);
        assert_eq!(found.size.to_be_bytes()[3..], bytes[field.end..][..5]);
        let spec = compare_spec(bytes, found.spec_number).unwrap();
        assert!(ptr::eq(found.spec, spec));
    }
    assert!(compare_spec(bytes, file.specs - 1).is_ok());
    assert!(compare_spec(bytes, file.specs).is_err());
}

/// Each key of each file and the keys beside it, and keys of other lengths.
#[test]
fn every_pair_of_key_sizes() {
    let mut random = Random::of_test();
    let mut tally = Tally::new("lookups");
    let pairs = (1..=16).flat_map(|content| (1..=16).map(move |encoding| [content, encoding]));
    for key_lens in pairs {
        let file = EncodingFile::with_key_lens(&mut random, key_lens);
        assert_eq!(compare_check(&file.bytes), Ok(()));
        expect_content_entries(&file);
        expect_encoding_entries(&file);
        for (kind, key_len) in BOTH.into_iter().zip(key_lens) {
            for number in 0..file.entries(kind).len() {
                let key = &file.bytes[file.key(kind, number)];
                for step in [-1, 1] {
                    tally.add(&compare_lookup(&file.bytes, kind, &beside(key, step)));
                }
            }
            for length in (0..=20).filter(|&length| length != key_len) {
                let answer = compare_lookup(&file.bytes, kind, &vec![5; length]);
                let refused = refusal_at(Reason::EncodingKeyLength, 0);
                assert_eq!(answer, Err(refused));
                tally.add(&answer);
            }
        }
    }
    tally.print([39]);
}

/// More pages than a byte counts, and pages of more KB than that.
#[test]
fn many_pages_and_large_ones() {
    let table = |page_kb, pages| TableParts {
        key_size: 2,
        page_kb,
        pages,
    };
    let keys = 0..700_u16;
    let content = |key: u16| [&[1, 0, 0, 0, 0, 7][..], &key.to_be_bytes(), &[1, 1]].concat();
    let encoding = |key: u16| [&key.to_be_bytes()[..], &[0, 0, 0, 1, 0, 0, 0, 0, 9]].concat();
    let contents: Vec<_> = keys.clone().map(content).collect();
    let encodings: Vec<_> = keys.clone().map(encoding).collect();
    let large = small(
        b"n\0z\0",
        table(300, vec![contents.concat()]),
        table(301, vec![encodings.concat()]),
    );
    let many = small(b"n\0z\0", table(1, contents), table(1, encodings));
    for file in [&large, &many] {
        assert_eq!(compare_check(file), Ok(()));
        for key in keys.clone().chain([700, u16::MAX]) {
            for kind in BOTH {
                let found = compare_lookup(file, kind, &key.to_be_bytes());
                assert_eq!(found, Ok(keys.contains(&key)));
            }
        }
    }
    let content_pages = HEADER + 4 + 700 * 18;
    let encoding_pages = content_pages + 700 * (1024 + 18);
    for pages in [content_pages, encoding_pages] {
        let mut file = many.clone();
        file[pages + 699 * 1024 + 500] ^= 1;
        let refused = Err(refusal_at(Reason::EncodingPageHash, 699));
        assert_eq!(compare_check(&file), refused);
    }
}

/// Parts whose sizes are above the file's, also by multiples of 2^32.
#[test]
fn parts_past_the_end() {
    let mut good = small(b"n\0z\0", pages(&[&content(5)]), pages(&[&encoding(5, 1)]));
    good.resize(200_000, 7);
    assert_eq!(compare_check(&good), Ok(()));
    let expect_cut = |edits: [(usize, &[u8]); 2]| {
        let mut file = good.clone();
        for (at, bytes) in edits {
            file[at..][..bytes.len()].copy_from_slice(bytes);
        }
        let cut = refusal_at(Reason::EncodingCut, 0);
        assert_eq!(compare_check(&file), Err(cut));
        for kind in BOTH {
            assert_eq!(compare_lookup(&file, kind, &[5]), Err(cut));
        }
        assert_eq!(compare_spec(&file, 0), Err(cut));
    };
    let sizes = [
        (0x400, 0x1000),
        (0x8000, 0x80),
        (0x8000, 0x180),
        (1, 1 << 22),
        (1, 200),
        (200, 1),
        (u16::MAX, u32::MAX),
    ];
    for (page_kb, pages) in sizes {
        for (page_kb_at, pages_at) in [(5, 9), (7, 13)] {
            expect_cut([
                (page_kb_at, &page_kb.to_be_bytes()),
                (pages_at, &u32::to_be_bytes(pages)),
            ]);
        }
    }
    for spec_size in [good.len() as u32 - 22, 1 << 31, u32::MAX] {
        expect_cut([(18, &spec_size.to_be_bytes()), (22, b"n")]);
    }
}

/// A file like a good one, with faults.
fn with_faults(random: &mut Random, good: &EncodingFile, faults: &[Fault]) -> Vec<u8> {
    let mut file = good.clone();
    file.put_faults(random, faults);
    file.bytes
}

/// Each fault is told, and of two in a file the one that is judged first.
#[test]
fn faults_in_their_order() {
    let mut random = Random::of_test();
    let mut tally = Tally::new("files with faults");
    tally.add(&compare_check(&EncodingFile::random(&mut random).bytes));
    while tally.count < 15_000 {
        let good = EncodingFile::random(&mut random);
        let faults = good.faults();
        if faults.len() > 40 {
            continue;
        }
        for (number, &one) in faults.iter().enumerate() {
            let answer = compare_check(&with_faults(&mut random, &good, &[one]));
            assert_eq!(answer, Err(in_library_terms(one.refusal())), "{one:?}");
            for &other in &faults[number + 1..] {
                let answer = compare_check(&with_faults(&mut random, &good, &[one, other]));
                let first = in_library_terms(one.min(other).refusal());
                assert_eq!(answer, Err(first), "{one:?} and {other:?}");
                tally.add(&answer);
            }
        }
    }
    tally.print(30..=38);
}

/// The first keys that a lookup goes by may be any: of the pages that are not above the sought key
/// the highest-numbered is searched, whatever stands before it.
#[test]
fn first_keys_in_any_order() {
    let stored = [0, 60, 120, 180];
    let entries = [10, 70, 130, 190];
    let contents = entries.map(content);
    let encodings = entries.map(|key| encoding(key, 0));
    let good = small(
        b"n\0",
        pages(&contents.each_ref().map(|entry| &entry[..])),
        pages(&encodings.each_ref().map(|entry| &entry[..])),
    );
    let indexes = [HEADER + 2, HEADER + 2 + 4 * (17 + 1024)];
    for chosen in 0..256 {
        let mut file = good.clone();
        let first_keys = [0, 2, 4, 6].map(|shift| stored[chosen >> shift & 3]);
        for index in indexes {
            for (page, first_key) in first_keys.into_iter().enumerate() {
                file[index + 17 * page] = first_key;
            }
        }
        for key in 0..=u8::MAX {
            let page = first_keys.iter().rposition(|&first_key| first_key <= key);
            let found = page.is_some_and(|page| entries[page] == key);
            for kind in BOTH {
                assert_eq!(compare_lookup(&file, kind, &[key]), Ok(found));
            }
        }
    }
}

/// A small file with a full content page, whose entries start at bytes 0, 262, 524 and 786, and
/// where its pages stand.
fn full_page() -> (Vec<u8>, [Range<usize>; 2]) {
    let long = |key, count: u8| {
        let mut entry = vec![count, 0, 0, 0, 0, 7, key];
        entry.resize(7 + usize::from(count), key);
        entry
    };
    let contents = [long(3, 255), long(5, 255), long(7, 255), long(9, 231)].concat();
    let encodings = [encoding(0x20, 1), encoding(9, PADDING), encoding(0xe0, 0)].concat();
    let file = small(b"n\0z\0", pages(&[&contents]), pages(&[&encodings]));
    let content_page = HEADER + 4 + 17..HEADER + 4 + 17 + 1024;
    let encoding_page = content_page.end + 17..content_page.end + 17 + 1024;
    (file, [content_page, encoding_page])
}

/// All calls on a file.
#[track_caller]
fn compare_calls(file: &[u8], tally: &mut Tally) {
    tally.add(&compare_check(file));
    let _ = [5, 9].map(|key| compare_content(file, &[key]));
    let _ = [0, 0xe0].map(|key| compare_encoding(file, &[key]));
    let _ = compare_spec(file, 1);
}

/// Each start of a small file, and each byte of it with other values: all of them in the first
/// bytes of entries and in what is no page. Pages also with the right hash.
#[test]
fn every_byte() {
    let (good, pages) = full_page();
    let mut tally = Tally::new("files");
    for length in 0..=good.len() {
        compare_calls(&good[..length], &mut tally);
    }
    for at in 0..good.len() {
        let page = pages.iter().find(|page| page.contains(&at));
        let few = page.is_some_and(|page| (at - page.start) % 262 >= 30);
        for value in if few { 0..=2 } else { 0..=u8::MAX } {
            let mut file = good.clone();
            file[at] = value;
            compare_calls(&file, &mut tally);
            if let Some(page) = page {
                let hash = second::md5::digest(&file[page.clone()]).unwrap();
                file[page.start - 16..page.start].copy_from_slice(&hash);
                compare_calls(&file, &mut tally);
            }
        }
    }
    tally.print(30..=38);
}
