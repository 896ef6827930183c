//! Encoding files by the second program.

use second::encoding::{
    ContentEntry, EncodingEntry, HEADER, PADDING, Parts, TableParts, check, find_content,
    find_encoding, paged, spec, write,
};
use second::md5;
use second::refusal::{self, Refusal};

// Where the parts of the file of two pages of each kind stand.
const CONTENT_INDEX: usize = 26;
const CONTENT_PAGES: usize = 62;
const ENCODING_INDEX: usize = 2110;
const ENCODING_PAGES: usize = 2144;
const OWN_SPEC: usize = 4192;

/// Of each kind: where its index stands, its key size, and where its pages stand.
const TABLES: [(usize, usize, usize); 2] = [
    (CONTENT_INDEX, 2, CONTENT_PAGES),
    (ENCODING_INDEX, 1, ENCODING_PAGES),
];

fn content(size: u64, key: &[u8], encoding_keys: &[u8]) -> Vec<u8> {
    let count = encoding_keys.len() as u8;
    ContentEntry {
        count,
        size,
        key,
        encoding_keys,
    }
    .bytes()
}

fn encoding(key: u8, spec_number: u32, size: u64) -> Vec<u8> {
    EncodingEntry {
        key: &[key],
        spec_number,
        size,
    }
    .bytes()
}

/// The parts of a file with content keys of 2 bytes and encoding keys of 1, and two pages of each
/// kind.
fn parts() -> Parts {
    Parts {
        specs: b"n\0z\0".to_vec(),
        content: TableParts {
            key_size: 2,
            page_kb: 1,
            pages: vec![
                [
                    content(7, &[0, 5], &[0xa1]),
                    content(0x01_0203_0405, &[0, 7], &[0xa2, 0xa3]),
                ]
                .concat(),
                content(0, &[1, 0], &[0xa1]),
            ],
        },
        encoding: TableParts {
            key_size: 1,
            page_kb: 1,
            pages: vec![
                encoding(0x10, 1, 9),
                [
                    encoding(0x05, PADDING, 0),
                    encoding(0xa1, 0, 5),
                    encoding(0, 0, 3),
                    encoding(0xff, 1, 0xff_ffff_ffff),
                ]
                .concat(),
            ],
        },
        own_spec: b"own".to_vec(),
    }
}

fn file() -> Vec<u8> {
    write(&parts())
}

/// The file after an edit, with the right hashes.
fn edited(edit: impl FnOnce(&mut [u8])) -> Vec<u8> {
    let mut file = file();
    edit(&mut file);
    for (index, key_len, pages) in TABLES {
        for page in 0..2 {
            let hash = md5::digest(&file[pages + 1024 * page..][..1024]).unwrap();
            let entry = index + (key_len + 16) * page;
            file[entry + key_len..][..16].copy_from_slice(&hash);
        }
    }
    file
}

#[track_caller]
fn expect_refused(number: u32, place: u64, file: &[u8]) {
    assert_eq!(check(file), Err(Refusal { number, place }));
}

/// Where a part of a file stands in it.
fn place(file: &[u8], part: &[u8]) -> usize {
    part.as_ptr().addr() - file.as_ptr().addr()
}

#[test]
fn a_whole_file() {
    let file = file();
    assert_eq!(file.len(), OWN_SPEC + 3);
    assert_eq!(
        file[..HEADER],
        *b"EN\x01\x02\x01\0\x01\0\x01\0\0\0\x02\0\0\0\x02\0\0\0\0\x04"
    );
    assert_eq!(file[HEADER..CONTENT_INDEX], *b"n\0z\0");
    let index = &file[CONTENT_INDEX..CONTENT_PAGES];
    assert_eq!(index[..2], [0, 5]);
    assert_eq!(
        index[2..18],
        md5::digest(&file[CONTENT_PAGES..][..1024]).unwrap()
    );
    assert_eq!(index[18..20], [1, 0]);
    assert_eq!(
        file[CONTENT_PAGES..][..20],
        *b"\x01\0\0\0\0\x07\0\x05\xa1\x02\x01\x02\x03\x04\x05\0\x07\xa2\xa3\0"
    );
    assert_eq!(file[ENCODING_INDEX], 0x10);
    assert_eq!(file[ENCODING_INDEX + 17], 0xa1);
    assert_eq!(
        file[ENCODING_PAGES + 1024..][..20],
        *b"\x05\xff\xff\xff\xff\0\0\0\0\0\xa1\0\0\0\0\0\0\0\0\x05"
    );
    assert_eq!(file[OWN_SPEC..], *b"own");
    assert_eq!(check(&file), Ok(()));
    // Nothing need stand after the parts.
    assert_eq!(check(&file[..OWN_SPEC]), Ok(()));
}

#[test]
fn content_lookups() {
    let file = file();
    let find = |key: &[u8]| find_content(&file, key).unwrap();
    let found = find(&[0, 7]).unwrap();
    assert_eq!((found.count, found.size), (2, 0x01_0203_0405));
    assert_eq!(
        (found.key, found.encoding_keys),
        (&[0, 7][..], &[0xa2, 0xa3][..])
    );
    assert_eq!(place(&file, found.encoding_keys), CONTENT_PAGES + 17);
    assert_eq!(find(&[0, 5]).unwrap().size, 7);
    let found = find(&[1, 0]).unwrap();
    assert_eq!(place(&file, found.encoding_keys), CONTENT_PAGES + 1024 + 8);
    for absent in [[0, 0], [0, 4], [0, 6], [0, 8], [0, 255], [1, 1], [255, 255]] {
        assert_eq!(find(&absent), None);
    }
    for wrong in [&[][..], &[5], &[0, 5, 0], &[0; 16]] {
        assert_eq!(
            find_content(&file, wrong),
            Err(refusal::ENCODING_KEY_LENGTH)
        );
    }
}

#[test]
fn encoding_lookups() {
    let file = file();
    let find = |key: u8| find_encoding(&file, &[key]).unwrap();
    let (entry, spec) = find(0xff).unwrap();
    assert_eq!((entry.key, entry.spec_number), (&[0xff][..], 1));
    assert_eq!((entry.size, spec), (0xff_ffff_ffff, &b"z"[..]));
    assert_eq!(place(&file, spec), 24);
    assert_eq!(find(0xa1).unwrap().1, b"n");
    assert_eq!(find(0x10).unwrap().0.size, 9);
    // Padding is never found.
    for absent in [0, 5, 0x0f, 0x11, 0xa0, 0xa2, 0xfe] {
        assert_eq!(find(absent), None);
    }
    for wrong in [&[][..], &[0, 0x10]] {
        assert_eq!(
            find_encoding(&file, wrong),
            Err(refusal::ENCODING_KEY_LENGTH)
        );
    }
}

#[test]
fn m12_specs_by_number() {
    let file = file();
    assert_eq!(spec(&file, 0), Ok(&b"n"[..]));
    assert_eq!(spec(&file, 1), Ok(&b"z"[..]));
    for number in [2, 3, u32::MAX] {
        assert_eq!(spec(&file, number), Err(refusal::SPEC_NUMBER));
    }
    // Empty strings are specs.
    let mut parts = parts();
    parts.specs = b"\0n\0\0".to_vec();
    let file = write(&parts);
    for (number, string, at) in [(0, &b""[..], 22), (1, b"n", 23), (2, b"", 25)] {
        let spec = spec(&file, number).unwrap();
        assert_eq!((spec, place(&file, spec)), (string, at));
    }
    assert_eq!(spec(&file, 3), Err(refusal::SPEC_NUMBER));
    parts.specs = b"\0".to_vec();
    assert_eq!(spec(&write(&parts), 0), Ok(&b""[..]));
    assert_eq!(spec(&write(&parts), 1), Err(refusal::SPEC_NUMBER));
}

#[test]
fn starts() {
    let good = file();
    for length in 0..HEADER {
        expect_refused(30, 0, &good[..length]);
    }
    expect_refused(30, 0, &edited(|file| file[0] = b'N'));
    expect_refused(30, 0, &edited(|file| file[1] = b'E'));
    for length in HEADER..OWN_SPEC {
        expect_refused(32, 0, &good[..length]);
    }
    let wrong: [(usize, &[u8]); 8] = [
        (2, &[0, 2, 255]),
        (3, &[0, 17, 255]),
        (4, &[0, 17, 255]),
        (6, &[0]),
        (8, &[0]),
        (12, &[0]),
        (16, &[0]),
        (17, &[1, 255]),
    ];
    for (at, values) in wrong {
        for &value in values {
            expect_refused(31, 0, &edited(|file| file[at] = value));
        }
    }
    expect_refused(31, 0, &edited(|file| file[21] = 0));
    // Parts that end far past the end.
    expect_refused(32, 0, &edited(|file| file[9..13].fill(255)));
    expect_refused(32, 0, &edited(|file| file[5..17].fill(255)));
    expect_refused(33, 0, &edited(|file| file[25] = 1));
}

#[test]
fn starts_in_order() {
    let mut file = edited(|file| file[25] = 1);
    file.pop();
    expect_refused(33, 0, &file);
    file.truncate(OWN_SPEC - 1);
    expect_refused(32, 0, &file);
    file[17] = 1;
    expect_refused(31, 0, &file);
    file[0] = 0;
    expect_refused(30, 0, &file);
}

#[test]
fn page_hashes() {
    let good = file();
    for (index, key_len, pages) in TABLES {
        for page in 0..2 {
            let last_of_hash = index + (key_len + 16) * (page + 1) - 1;
            // Nothing else judges it.
            let last_of_page = pages + 1024 * (page + 1) - 1;
            for at in [last_of_hash, last_of_page] {
                let mut file = good.clone();
                file[at] ^= 1;
                expect_refused(34, page as u64, &file);
            }
        }
    }
}

#[test]
fn content_pages() {
    // What stands behind the closing zero is not judged.
    let noise = edited(|file| file[CONTENT_PAGES + 20..][..1004].fill(0xee));
    assert_eq!(check(&noise), Ok(()));
    // An entry that ends with the page, one that ends behind it, and one that starts with its last
    // byte.
    let full = full_page(1024);
    let file = with_content_pages(&[&full]);
    assert_eq!(check(&file), Ok(()));
    assert_eq!(find_content(&file, &[0, 102]).unwrap().unwrap().count, 107);
    let mut over = full.clone();
    over[909] += 1;
    expect_refused(35, 0, &with_content_pages(&[&over]));
    let last_byte = [&full_page(1023)[..], &[1]].concat();
    expect_refused(35, 0, &with_content_pages(&[&last_byte]));
    // No entry, and another first key.
    expect_refused(37, 1, &edited(|file| file[CONTENT_PAGES + 1024] = 0));
    expect_refused(37, 0, &edited(|file| file[CONTENT_INDEX + 1] = 4));
    expect_refused(37, 0, &edited(|file| file[CONTENT_PAGES + 7] = 4));
    // Equal and falling keys, in a page and from one to the next.
    for key in [5, 4] {
        expect_refused(36, 0, &edited(|file| file[CONTENT_PAGES + 16] = key));
    }
    for key in [7, 6] {
        let file = edited(|file| {
            file[CONTENT_INDEX + 18..][..2].copy_from_slice(&[0, key]);
            file[CONTENT_PAGES + 1024 + 6..][..2].copy_from_slice(&[0, key]);
        });
        expect_refused(36, 1, &file);
    }
}

/// A page of this length of content entries with keys from 1: 101 with one encoding key, and at
/// byte 909 one with the rest.
fn full_page(length: usize) -> Vec<u8> {
    let mut page = Vec::new();
    for number in 1..102 {
        page.extend(content(1, &[0, number], &[number]));
    }
    page.extend(content(1, &[0, 102], &vec![7; length - 909 - 8]));
    page
}

/// The file with these content pages.
fn with_content_pages(pages: &[&[u8]]) -> Vec<u8> {
    let mut parts = parts();
    parts.content.pages = pages.iter().map(|page| page.to_vec()).collect();
    write(&parts)
}

#[test]
fn encoding_pages() {
    const SECOND: usize = ENCODING_PAGES + 1024;
    // A tail shorter than an entry, and sizes and keys of padding, are not judged.
    let noise = edited(|file| {
        file[SECOND + 1020..][..4].fill(0xee);
        file[SECOND] = 0xff;
        file[SECOND + 5..][..5].fill(0xee);
        file[SECOND + 25..][..5].fill(0xee);
    });
    assert_eq!(check(&noise), Ok(()));
    // A key of zeros with another spec number is an entry, and so is number 0 with another key.
    expect_refused(36, 1, &edited(|file| file[SECOND + 24] = 1));
    expect_refused(36, 1, &edited(|file| file[SECOND + 20] = 1));
    let zero_key = edited(|file| {
        file[ENCODING_PAGES] = 0;
        file[ENCODING_INDEX] = 0;
    });
    assert_eq!(check(&zero_key), Ok(()));
    assert_eq!(find_encoding(&zero_key, &[0]).unwrap().unwrap().1, b"z");
    // No entry, and another first key.
    expect_refused(
        37,
        0,
        &edited(|file| file[ENCODING_PAGES + 1..][..4].fill(255)),
    );
    expect_refused(37, 0, &edited(|file| file[ENCODING_PAGES..][..5].fill(0)));
    expect_refused(37, 0, &edited(|file| file[ENCODING_PAGES] = 0x11));
    expect_refused(37, 1, &edited(|file| file[ENCODING_INDEX + 17] = 5));
    // Equal and falling keys, in a page and from one to the next.
    for key in [0xa1, 0xa0] {
        expect_refused(36, 1, &edited(|file| file[SECOND + 30] = key));
    }
    for key in [0xa1, 0xa2] {
        let file = edited(|file| {
            file[ENCODING_PAGES] = key;
            file[ENCODING_INDEX] = key;
        });
        expect_refused(36, 1, &file);
    }
    // The first number past the table, and the highest that is no padding.
    expect_refused(38, 0, &edited(|file| file[ENCODING_PAGES + 4] = 2));
    expect_refused(
        38,
        0,
        &edited(|file| file[SECOND + 31..][..4].copy_from_slice(&[255, 255, 255, 254])),
    );
}

/// Each page 34, 35, 37, 36, 38, over the whole page before the next.
#[test]
fn pages_in_order() {
    const SECOND: usize = CONTENT_PAGES + 1024;
    // Keys that do not rise, another first key, and at the end an entry over the page.
    let first = content(7, &[0, 5], &[0xa1]);
    let mut second = content(0, &[1, 0], &[1; 255]).repeat(3);
    second.push(255);
    let mut file = with_content_pages(&[&first, &second]);
    file[CONTENT_INDEX + 18] = 2;
    expect_refused(35, 1, &file);
    file[SECOND + 789] = 0;
    expect_refused(34, 1, &file);
    let hash = md5::digest(&file[SECOND..SECOND + 1024]).unwrap();
    file[CONTENT_INDEX + 20..][..16].copy_from_slice(&hash);
    expect_refused(37, 1, &file);
    file[CONTENT_INDEX + 18] = 1;
    expect_refused(36, 1, &file);

    // A spec number of page 0 goes before the hash of page 1, and after all content pages.
    let mut file = edited(|file| file[ENCODING_PAGES + 4] = 2);
    file[ENCODING_PAGES + 1024] ^= 1;
    expect_refused(38, 0, &file);
    file[CONTENT_INDEX + 19] ^= 1;
    expect_refused(37, 1, &file);
    file[CONTENT_INDEX + 1] ^= 1;
    expect_refused(37, 0, &file);
}

/// Lookups go by the first keys as they stand, and make no further check.
#[test]
fn lookups_in_files_that_fail() {
    // The first keys are not in order: the last page that is not above is searched.
    let mut file = file();
    file[CONTENT_INDEX + 18..][..2].fill(0);
    assert_eq!(find_content(&file, &[0, 5]), Ok(None));
    assert_eq!(find_content(&file, &[1, 0]).unwrap().unwrap().size, 0);
    file[CONTENT_INDEX + 18..][..2].fill(9);
    assert_eq!(find_content(&file, &[0, 5]).unwrap().unwrap().size, 7);
    assert_eq!(find_content(&file, &[1, 0]), Ok(None));

    // An entry over the end refuses where it is met, also with the sought key.
    let mut page = content(1, &[0, 9], &[1]);
    for key in [8, 7, 6, 5] {
        page.extend(content(2, &[0, key], &[1; 255]));
    }
    let mut file = with_content_pages(&[&page[..1024], &page[..9]]);
    file[CONTENT_INDEX..][..2].fill(0);
    file[CONTENT_INDEX + 18] = 1;
    for found in [9, 8, 7, 6] {
        assert!(find_content(&file, &[0, found]).unwrap().is_some());
    }
    for met in [5, 4, 255] {
        let over = refusal::entry_over_page_end(0);
        assert_eq!(find_content(&file, &[0, met]), Err(over));
    }

    // A spec number past the table refuses the entry found, and no other.
    let file = edited(|file| file[ENCODING_PAGES + 1024 + 14] = 7);
    assert_eq!(find_encoding(&file, &[0xa1]), Err(refusal::SPEC_NUMBER));
    assert_eq!(find_encoding(&file, &[0xff]).unwrap().unwrap().1, b"z");
    assert_eq!(find_encoding(&file, &[0xa2]), Ok(None));

    // The checks before the pages go before the length of the key.
    let file = edited(|file| file[25] = 1);
    assert_eq!(find_content(&file, &[]), Err(refusal::LAST_SPEC));
    assert_eq!(find_encoding(&file, &[]), Err(refusal::LAST_SPEC));
    assert_eq!(spec(&file, 9), Err(refusal::LAST_SPEC));
}

#[test]
fn entries_on_pages() {
    let entries = (0..5).map(|number| vec![number; 400]);
    let pages = paged(entries, 1);
    let lengths: Vec<_> = pages.iter().map(Vec::len).collect();
    assert_eq!(lengths, [800, 800, 400]);
    assert_eq!(
        pages.concat(),
        (0..5).flat_map(|number| [number; 400]).collect::<Vec<_>>()
    );
    assert_eq!(paged([vec![1; 512], vec![2; 512], vec![3]], 1).len(), 2);
}
