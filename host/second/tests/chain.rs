//! The chain by the second program.

use second::chain::{Build, Link, Refused, Resolved, plain_reading, resolve};
use second::encoding::{ContentEntry, EncodingEntry, Parts, TableParts};
use second::index::{Found, Settings};
use second::refusal::{self, Refusal};
use second::{encoding, index, root};

/// A root file of the ids from 5 on, for the locale 2 and with content flag 4. Each content key is of
/// one of these bytes.
fn root(keys: &[u8]) -> Vec<u8> {
    let record = |(number, &key): (usize, &u8)| root::Record {
        delta: if number == 0 { 5 } else { 0 },
        key: [key; 16],
        name_hash: [0; 8],
    };
    let block = root::BlockParts {
        locale: 2,
        content: 4,
        unknown: [0; 5],
        records: keys.iter().enumerate().map(record).collect(),
    };
    root::write(None, &[block])
}

/// An encoding file with keys of these sizes. Each content key is of one of these bytes, and each of
/// its encoding keys too.
fn encoding(key_sizes: [u8; 2], entries: &[(u8, &[u8])]) -> Vec<u8> {
    let [key_size, encoding_key_size] = key_sizes;
    let content = entries.iter().flat_map(|&(key, encoding_keys)| {
        ContentEntry {
            count: encoding_keys.len() as u8,
            size: 7,
            key: &vec![key; key_size.into()],
            encoding_keys: &key_run(encoding_keys, encoding_key_size),
        }
        .bytes()
    });
    let encoding = EncodingEntry {
        key: &vec![9; encoding_key_size.into()],
        spec_number: 0,
        size: 7,
    };
    let table = |key_size, page| TableParts {
        key_size,
        page_kb: 1,
        pages: vec![page],
    };
    encoding::write(&Parts {
        specs: b"n\0".to_vec(),
        content: table(key_size, content.collect()),
        encoding: table(encoding_key_size, encoding.bytes()),
        own_spec: Vec::new(),
    })
}

/// Keys of one byte each, one after the other.
fn key_run(keys: &[u8], key_size: u8) -> Vec<u8> {
    keys.iter()
        .flat_map(|&key| vec![key; key_size.into()])
        .collect()
}

/// An index of these keys, each of one byte, with its number as size and location.
fn index(key_length: u32, keys: &[u8]) -> Vec<u8> {
    let settings = Settings {
        version: 1,
        offset_width: 4,
        key_length,
    };
    let mut list = Vec::new();
    for (number, &key) in (0u32..).zip(keys) {
        list.extend(vec![key; settings.key_len()]);
        list.extend([number.to_be_bytes(); 2].as_flattened());
    }
    let mut file = vec![0; settings.file_len(keys.len())];
    index::write(settings, &list, &mut file).unwrap();
    file
}

fn absent(link: Link, compared: u32) -> Result<Resolved, Refused> {
    Ok(Resolved::Absent { link, compared })
}

fn refused(link: Link, refusal: Refusal) -> Result<Resolved, Refused> {
    Err(Refused { refusal, link })
}

#[test]
fn found_and_absent() {
    let root = root(&[0x50, 0x60, 0x70]);
    let encoding = encoding([16, 9], &[(0x50, &[0xa5, 0xa4]), (0x60, &[0xa6, 0xa4])]);
    let index = index(9, &[0xa4, 0xa5]);
    let build = Build {
        root: &root,
        encoding: &encoding,
        index: &index,
    };
    // The first encoding key is followed, and no other.
    let found = Found {
        page: 0,
        slot: 1,
        size: 1,
        location: 1,
    };
    // The last key, slot 1, slot 0, and slot 1 once more.
    let compared = 4;
    let expected = Ok(Resolved::Found { found, compared });
    assert_eq!(resolve(build, 5, 2, 0), expected);
    assert_eq!(plain_reading(build, 5, 2, 0), Ok(found));
    for (id, locale, unwanted, link, compared) in [
        (6, 2, 0, Link::Index, 1),
        (7, 2, 0, Link::Encoding, 0),
        (8, 2, 0, Link::Root, 0),
        (5, 4, 0, Link::Root, 0),
        (5, 2, 4, Link::Root, 0),
    ] {
        let answer = resolve(build, id, locale, unwanted);
        assert_eq!(answer, absent(link, compared));
        assert_eq!(plain_reading(build, id, locale, unwanted), Err(link));
    }
}

/// Each link refuses in turn, and later files are as they are.
#[test]
fn refused_by_each_link() {
    let root = root(&[0x50]);
    let encodings = [
        encoding([16, 9], &[(0x50, &[0xa5])]),
        encoding([15, 9], &[(0x50, &[0xa5])]),
        Vec::new(),
    ];
    let mut bad_index = index(8, &[0xa5]);
    bad_index.pop();
    let indexes = [index(9, &[0xa5]), index(8, &[0xa5]), bad_index];
    for (e, encoding) in encodings.iter().enumerate() {
        for (i, index) in indexes.iter().enumerate() {
            let build = Build {
                root: &root,
                encoding,
                index,
            };
            let answer = resolve(build, 5, 2, 0);
            match (e, i) {
                (0, 0) => assert!(matches!(answer, Ok(Resolved::Found { .. }))),
                (0, 1) => assert_eq!(answer, refused(Link::Index, refusal::SOUGHT_KEY_LENGTH)),
                (0, _) => assert_eq!(answer, refused(Link::Index, refusal::FOOTER_VERSION)),
                (1, _) => {
                    let refusal = refusal::ENCODING_KEY_LENGTH;
                    assert_eq!(answer, refused(Link::Encoding, refusal));
                }
                _ => {
                    let refusal = refusal::NOT_AN_ENCODING_FILE;
                    assert_eq!(answer, refused(Link::Encoding, refusal));
                }
            }
            assert_eq!(resolve(build, 6, 2, 0), absent(Link::Root, 0));
            let cut = &root[..root.len() - 1];
            let answer = resolve(Build { root: cut, ..build }, 6, 2, 0);
            assert_eq!(answer, refused(Link::Root, refusal::block_cut(0)));
        }
    }
}
