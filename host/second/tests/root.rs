//! Root files by the second program.

use second::name_hash::name_hash;
use second::refusal::{self, Refusal};
use second::root::{
    BlockParts, Found, Header, MAGICS, NO_NAME_HASHES, Record, check, find, find_many,
    find_many_into, find_path, write,
};

const ALL: u32 = u32::MAX;

/// A block of records with these deltas. Each key is of one byte, which counts up from this one.
fn block(locale: u32, content: u32, first_key: u8, deltas: &[i32]) -> BlockParts {
    let records = (first_key..).zip(deltas).map(|(key, &delta)| Record {
        delta,
        key: [key; 16],
        name_hash: [0xee; 8],
    });
    BlockParts {
        locale,
        content,
        unknown: [0xdd; 5],
        records: records.collect(),
    }
}

/// The header of a file with a magic and these numbers.
fn header(a: u32, b: u32) -> Option<Header> {
    let magic = MAGICS[0];
    Some(Header { magic, a, b })
}

/// The ids of a block with these deltas, found by their keys; the refusal's number where it is
/// refused.
fn ids(deltas: &[i32]) -> Result<Vec<u32>, u32> {
    let file = write(None, &[block(1, 0, 0, deltas)]);
    check(&file).map_err(|refusal| refusal.number)?;
    let found = |id| find(&file, id, 1, 0).unwrap();
    let near = (0..20)
        .chain(i32::MAX as u32 - 2..=i32::MAX as u32 + 2)
        .chain(u32::MAX - 2..=u32::MAX);
    Ok(near.filter(|&id| found(id).is_some()).collect())
}

#[test]
fn m5_to_m8() {
    assert_eq!(ids(&[5, 0, 0]), Ok(vec![5, 6, 7]));
    assert_eq!(ids(&[5, -1]), Ok(vec![5]));
    assert_eq!(ids(&[0, -2]), Err(41));
    assert_eq!(ids(&[-1]), Err(41));
    assert_eq!(
        ids(&[i32::MAX, i32::MAX]),
        Ok(vec![i32::MAX as u32, u32::MAX])
    );
    assert_eq!(ids(&[i32::MAX, i32::MAX, 0]), Err(41));
    // Back from the highest, and to 0 from 1.
    assert_eq!(
        ids(&[i32::MAX, i32::MAX, -1]),
        Ok(vec![i32::MAX as u32, u32::MAX])
    );
    assert_eq!(ids(&[1, -2, 0]), Ok(vec![0, 1]));
    assert_eq!(ids(&[i32::MIN]), Err(41));
    assert_eq!(ids(&[i32::MAX, i32::MIN]), Ok(vec![0, i32::MAX as u32]));
    assert_eq!(ids(&[i32::MAX - 1, i32::MIN]), Err(41));
}

#[test]
fn m10_headers() {
    let blocks = [block(1, 0, 7, &[5])];
    for (b, block_header) in [(1, 12), (2, 17), (3, 17)] {
        for (a, place) in [
            (15, 12 + 12),
            (100, 12 + 12),
            (20, 20 + block_header),
            (99, 99 + block_header),
        ] {
            let file = write(header(a, b), &blocks);
            let key = Found {
                key: [7; 16],
                place: place + 4,
            };
            assert_eq!(find(&file, 5, 1, 0), Ok(Some(key)));
        }
        for a in 16..20 {
            let file = write(header(a, b), &blocks);
            assert_eq!(check(&file), Err(refusal::ROOT_HEADER_SIZE));
        }
    }
    for (a, b) in [
        (16, 0),
        (16, 5),
        (99, 5),
        (20, 0),
        (17, u32::MAX),
        (15, 4),
        (100, 4),
        (0, 0),
    ] {
        let file = write(header(a, b), &blocks);
        let key = 12 + 12 + 4;
        assert_eq!(find(&file, 5, 1, 0).unwrap().unwrap().place, key);
    }
    for a in [16, 19, 20, 99] {
        let file = write(header(a, 4), &blocks);
        assert_eq!(check(&file), Err(refusal::ROOT_VERSION));
        assert_eq!(check(&file[..12]), Err(refusal::ROOT_VERSION));
    }
}

#[test]
fn headers_that_are_cut() {
    for magic in MAGICS {
        let short = write(Some(Header { magic, a: 1, b: 1 }), &[]);
        assert_eq!(short.len(), 12);
        assert_eq!(check(&short), Ok(()));
        for length in 4..12 {
            assert_eq!(check(&short[..length]), Err(refusal::ROOT_HEADER_CUT));
        }
        for b in 1..4 {
            let long = write(Some(Header { magic, a: 24, b }), &[]);
            assert_eq!(long.len(), 24);
            assert_eq!(check(&long), Ok(()));
            for length in 4..24 {
                assert_eq!(check(&long[..length]), Err(refusal::ROOT_HEADER_CUT));
            }
            // 42 goes before a header that is cut.
            let small = write(Some(Header { magic, a: 19, b }), &[]);
            assert_eq!(check(&small[..12]), Err(refusal::ROOT_HEADER_SIZE));
        }
        // A part of the magic is none.
        for length in 1..4 {
            assert_eq!(check(&magic[..length]), Err(refusal::block_cut(0)));
        }
    }
    assert_eq!(check(&[]), Ok(()));
}

/// The blocks as they stand, byte by byte.
#[test]
fn layouts() {
    let one = [block(0x0102, 0x0304, 7, &[5, -3])];
    let keys = |separators: [&[u8]; 2]| {
        let [first, second] = separators;
        [&[7; 16], first, &[8; 16], second].concat()
    };
    let hashed = [&[0xee; 8][..]; 2];
    let deltas = b"\x05\0\0\0\xfd\xff\xff\xff";
    let apart: [&[u8]; 2] = [&[], &[0xee; 16]];
    let short_flags = &b"\x02\0\0\0\x04\x03\0\0\x02\x01\0\0"[..];
    let long_flags = b"\x02\0\0\0\x02\x01\0\0\x04\x03\0\0\xdd\xdd\xdd\xdd\xdd";
    let long_start = |b| [&b"MFST\x14\0\0\0"[..], &[b], &[0; 11]].concat();
    for (header, start, flags, hashes, places) in [
        (None, vec![], short_flags, hashed, [20, 44]),
        (
            header(1, 2),
            b"MFST\x01\0\0\0\x02\0\0\0".to_vec(),
            short_flags,
            apart,
            [32, 48],
        ),
        (header(20, 1), long_start(1), short_flags, apart, [40, 56]),
        (header(20, 2), long_start(2), long_flags, apart, [45, 61]),
    ] {
        let file = [&start, flags, deltas, &keys(hashes)].concat();
        assert_eq!(write(header, &one), file);
        let found = [5, 3].map(|id| find(&file, id, ALL, 0).unwrap().unwrap());
        assert_eq!(found.map(|found| found.place), places);
    }
}

/// Content bit 28 drops the name hashes, except in files without a magic; bit 13 does not.
#[test]
fn content_bits_13_and_28() {
    assert_eq!(NO_NAME_HASHES, 1 << 28);
    for (header, named, unnamed) in [
        (None, 40, 40),
        (header(1, 1), 40, 32),
        (header(20, 1), 40, 32),
        (header(20, 2), 45, 37),
        (header(20, 3), 45, 37),
    ] {
        for (content, size) in [
            (0, named),
            (1 << 13, named),
            (1 << 28, unnamed),
            (!0, unnamed),
            (!(1 << 28), named),
        ] {
            let file = write(header, &[block(1, content, 7, &[5]), block(1, 0, 9, &[6])]);
            let start = file.len() - named - size;
            assert_eq!(start, write(header, &[]).len());
            let found = find(&file, 6, 1, 0).unwrap().unwrap();
            assert_eq!(found.place, start + size + named - 24);
        }
    }
}

#[test]
fn blocks_that_are_cut() {
    for (header, start) in [
        (None, 0),
        (header(1, 1), 12),
        (header(30, 1), 30),
        (header(30, 3), 30),
    ] {
        let first = write(header, &[block(1, 0, 7, &[5, 0])]);
        let two = write(header, &[block(1, 0, 7, &[5, 0]), block(1, 0, 8, &[])]);
        for length in start + 1..two.len() {
            let expected = match length {
                _ if length == first.len() => Ok(()),
                _ if length < first.len() => Err(refusal::block_cut(start)),
                _ => Err(refusal::block_cut(first.len())),
            };
            assert_eq!(check(&two[..length]), expected);
        }
        assert_eq!(check(&two), Ok(()));
        // The count is unsigned, and its size does not wrap.
        for count in [3, 1 << 29, 1 << 30, 1 << 31, u32::MAX] {
            let mut file = two.clone();
            file[start..][..4].copy_from_slice(&count.to_le_bytes());
            assert_eq!(check(&file), Err(refusal::block_cut(start)));
        }
    }
}

/// A block is judged whole before the next: first 40, then 41.
#[test]
fn blocks_in_order() {
    let blocks = [
        block(1, 0, 7, &[5]),
        block(0, 0, 8, &[5, -7]),
        block(1, 0, 9, &[1]),
    ];
    let mut file = write(None, &blocks);
    let refused = |number, place| Err(Refusal { number, place });
    assert_eq!(check(&file), refused(41, 40));
    // Blocks that do not count, and blocks behind the wanted record, are checked too.
    assert_eq!(find(&file, 5, 1, 0), Err(refusal::id_range(40)));
    file.truncate(40 + 68 + 39);
    assert_eq!(check(&file), refused(41, 40));
    file.truncate(40 + 67);
    assert_eq!(check(&file), refused(40, 40));
    file[15] = 0x80;
    assert_eq!(check(&file), refused(41, 0));
}

#[test]
fn masks_and_the_first_match() {
    let blocks = [
        block(0, 0, 1, &[5]),
        block(2, 1, 2, &[4, 0, -1, -1]),
        block(2 | 4, 2, 6, &[5]),
        block(4, 0, 7, &[5, 0]),
    ];
    for header in [None, header(1, 1), header(20, 1), header(20, 2)] {
        let file = write(header, &blocks);
        let key = |id, locale, unwanted| {
            let found = find(&file, id, locale, unwanted).unwrap();
            found.map(|Found { key, place }| {
                assert_eq!(file[place..place + 16], key);
                key[0]
            })
        };
        assert_eq!(key(5, ALL, 0), Some(3));
        assert_eq!(key(5, ALL, 1), Some(6));
        assert_eq!(key(5, ALL, 2), Some(3));
        assert_eq!(key(5, ALL, 3), Some(7));
        assert_eq!(key(5, 4, 0), Some(6));
        assert_eq!(key(5, 4, 2), Some(7));
        assert_eq!(key(5, 2, 3), None);
        assert_eq!(key(5, 0, 0), None);
        assert_eq!(key(5, 1 << 31, 0), None);
        assert_eq!(key(5, ALL, u64::MAX), Some(7));
        assert_eq!(key(5, ALL, !0 << 32), Some(3));
        assert_eq!(key(4, ALL, 0), Some(2));
        assert_eq!(key(6, ALL, 0), Some(8));
        for absent in [0, 3, 7, u32::MAX] {
            assert_eq!(key(absent, ALL, 0), None);
        }
    }
}

/// For each id what is said of it, by the key's bytes.
fn said(keys: &[Option<u8>]) -> Vec<u8> {
    let answers = keys.iter().map(|key| {
        let found = [key.is_some().into(), 0, 0, 0];
        [&found[..], &[key.unwrap_or(0); 16]].concat()
    });
    answers.collect::<Vec<_>>().concat()
}

#[test]
fn many_ids() {
    let blocks = [block(1, 0, 7, &[5, -1, 2]), block(2, 1, 20, &[0, 4, 2])];
    let file = write(None, &blocks);
    let ids = [0u32, 5, 5, 6, 8, u32::MAX].map(u32::to_be_bytes).concat();
    for (locale, unwanted, keys) in [
        (1, 0, [None, Some(7), Some(7), None, Some(9), None]),
        (2, 0, [Some(20), Some(21), Some(21), None, Some(22), None]),
        (3, 0, [Some(20), Some(7), Some(7), None, Some(9), None]),
        (3, 1, [None, Some(7), Some(7), None, Some(9), None]),
        (4, 0, [None; 6]),
    ] {
        assert_eq!(find_many(&file, &ids, locale, unwanted), Ok(said(&keys)));
    }
    assert_eq!(find_many(&file, &[], 1, 0), Ok(vec![]));
    let mut output = [0xee; 121];
    assert_eq!(find_many_into(&file, &ids, (4, 0), &mut output), Ok(120));
    assert_eq!(output, *[&said(&[None; 6])[..], &[0xee]].concat());
}

#[test]
fn many_ids_refused() {
    let file = write(None, &[block(1, 0, 7, &[5])]);
    let list = |ids: &[u32]| -> Vec<u8> { ids.iter().flat_map(|id| id.to_be_bytes()).collect() };
    let short = find_many_into(&file, &list(&[5]), (1, 0), &mut [0; 19]);
    assert_eq!(short, Err(refusal::OUTPUT_TOO_SHORT));
    let mut falling = list(&[1, 1, 256, 255, 0]);
    assert_eq!(
        find_many(&file, &falling, 1, 0),
        Err(refusal::list_falls(3))
    );
    falling.push(0);
    assert_eq!(
        find_many(&file, &falling, 1, 0),
        Err(refusal::LIST_NOT_WHOLE)
    );
    let cut = &file[..file.len() - 1];
    assert_eq!(find_many(cut, &falling, 1, 0), Err(refusal::block_cut(0)));
}

/// The block with the name hashes of these paths.
fn named(mut block: BlockParts, paths: &[&str]) -> BlockParts {
    for (record, path) in block.records.iter_mut().zip(paths) {
        record.name_hash = name_hash(path.as_bytes()).unwrap().to_le_bytes();
    }
    block
}

/// Each path is found at its first record among the blocks that count: id, key and place.
#[test]
fn paths() {
    let blocks = [
        named(block(1, 0, 7, &[5, -3, 4]), &["a/x", "a/y", "A\\X"]),
        named(block(2, 1, 20, &[9, 0]), &["b", "a/y"]),
        named(block(3, 2, 30, &[0, 0]), &["b", ""]),
    ];
    for header in [
        None,
        header(1, 1),
        header(20, 1),
        header(20, 2),
        header(99, 3),
    ] {
        let file = write(header, &blocks);
        let found = |path: &str, locale, unwanted| {
            let found = find_path(&file, path.as_bytes(), locale, unwanted).unwrap();
            found.map(|(id, Found { key, place })| {
                assert_eq!(file[place..place + 16], key);
                (id, key[0])
            })
        };
        assert_eq!(found("a/x", ALL, 0), Some((5, 7)));
        assert_eq!(found("A\\x", 1, 0), Some((5, 7)));
        assert_eq!(found("a/x", 2, 0), None);
        assert_eq!(found("a/y", ALL, 0), Some((3, 8)));
        assert_eq!(found("a/y", 2, 0), Some((10, 21)));
        assert_eq!(found("a/y", 2, 1), None);
        assert_eq!(found("b", ALL, 0), Some((9, 20)));
        assert_eq!(found("b", ALL, 1), Some((0, 30)));
        assert_eq!(found("", ALL, 0), Some((1, 31)));
        assert_eq!(found("a", ALL, 0), None);
    }
}

/// A block without name hashes has none, though the bytes behind it are those of one.
#[test]
fn blocks_without_name_hashes() {
    let hash = name_hash(b"a").unwrap().to_le_bytes();
    let mut bare = block(1, NO_NAME_HASHES, 7, &[5, 0]);
    // Wherever a name hash is looked for in the block, there is one.
    for record in &mut bare.records {
        record.key = [hash, hash].concat().try_into().unwrap();
    }
    let blocks = [bare, named(block(1, 0, 9, &[6]), &["a"])];
    for header in [header(1, 1), header(20, 1), header(20, 2)] {
        let file = write(header, &blocks);
        let (id, found) = find_path(&file, b"a", 1, 0).unwrap().unwrap();
        assert_eq!((id, found.key), (6, [9; 16]));
        let file = write(header, &blocks[..1]);
        assert_eq!(find_path(&file, b"a", 1, 0), Ok(None));
    }
    // Without a magic the flag means nothing.
    let named = [named(block(1, NO_NAME_HASHES, 7, &[5]), &["a"])];
    let (id, _) = find_path(&write(None, &named), b"a", 1, 0)
        .unwrap()
        .unwrap();
    assert_eq!(id, 5);
}

/// 110 comes first, then the root's own refusals.
#[test]
fn paths_refused() {
    let long = [b'a'; 1025];
    for file in [&b"TSFM"[..], b"", &[0; 13]] {
        assert_eq!(find_path(file, &long, 1, 0), Err(refusal::PATH_LENGTH));
        assert_eq!(
            find_path(file, &long[..1024], 1, 0).err(),
            check(file).err()
        );
    }
    let blocks = [named(block(1, 0, 7, &[5]), &["a"]), block(0, 0, 8, &[-1])];
    let file = write(None, &blocks);
    assert_eq!(find_path(&file, b"a", 1, 0), Err(refusal::id_range(40)));
}
