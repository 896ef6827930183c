//! Records of a root file by path: the library against the parts of files and against the second
//! program.

mod compare;
mod raw;

use std::collections::BTreeMap;

use compare::{Tally, in_library_terms, refusal_at};
use dwarnizza::root::PathRecord;
use dwarnizza::{Reason, Refusal, Root};
use forge::faults::root::{Fault, RootFile, headers_about_the_bounds, random_masks};
use forge::paths::{BIT_13, path, respelled};
use forge::random::Random;
use second::name_hash::name_hash;
use second::root::{BlockParts, Found, Header, NO_NAME_HASHES, Record};

/// All locales, and no unwanted content.
const ALL: (u32, u64) = (u32::MAX, 0);

/// A path of 1,025 bytes.
const TOO_LONG: &[u8] = &[b'a'; 1025];

/// The lookup by the library, after seeing that the second program gives the same.
#[track_caller]
fn compare(file: &[u8], path: &[u8], masks: (u32, u64)) -> Result<Option<PathRecord>, Refusal> {
    let (locale, unwanted) = masks;
    let answer = second::root::find_path(file, path, locale, unwanted);
    let answer = answer
        .map_err(in_library_terms)
        .map(|found| found.map(|(id, Found { key, place })| PathRecord { id, key, place }));
    assert_eq!(raw::find_path(file, path, masks), answer);
    if let Ok(root) = Root::check(file) {
        assert_eq!(root.find_path(path, locale, unwanted), answer);
    }
    answer
}

/// The records with the name hash of a path, by block and number, in file order.
fn records_of(file: &RootFile, path: &[u8]) -> Vec<(usize, usize)> {
    let Ok(hash) = name_hash(path) else {
        return Vec::new();
    };
    let stored = |&(block, record): &(usize, usize)| {
        file.blocks[block].records[record].name_hash == hash.to_le_bytes()
    };
    file.records().filter(stored).collect()
}

/// What the parts of a good file say, of which all blocks have name hashes.
fn by_parts(file: &RootFile, path: &[u8], masks: (u32, u64)) -> Option<PathRecord> {
    let mut records = records_of(file, path).into_iter();
    let (block, record) = records.find(|&(block, _)| file.counts(block, masks))?;
    Some(PathRecord {
        id: file.id(block, record),
        key: file.blocks[block].records[record].key,
        place: file.key(block, record),
    })
}

/// What a lookup is an example of.
fn kind(file: &RootFile, path: &[u8], masks: (u32, u64)) -> &'static str {
    let records = records_of(file, path);
    let mut counting = records
        .iter()
        .filter(|(block, _)| file.counts(*block, masks));
    match (records.first(), counting.next(), counting.next()) {
        (None, ..) => "absent",
        (Some(_), None, _) => "in blocks that do not count",
        (Some(first), Some(found), _) if first != found => "behind blocks that do not count",
        (_, Some((0, 0)), None) => "the first record, once",
        (_, Some((0, _)), None) => "in the first block, once",
        (_, Some(_), None) => "in a later block, once",
        (_, Some((block, _)), Some((next, _))) if block == next => "twice in one block",
        _ => "in two blocks",
    }
}

/// Files of every layout, by masks of every kind: what is found is what the parts say.
#[test]
fn the_first_record_that_counts() {
    let mut random = Random::of_test();
    let mut kinds = BTreeMap::new();
    for _ in 0..4_000 {
        let count = random.within(1..=4);
        let paths: Vec<_> = (0..count).map(|_| path(&mut random)).collect();
        let file = RootFile::named(&mut random, &paths);
        for path in paths.iter().filter(|path| path.len() <= 1024) {
            let path = respelled(&mut random, path);
            for masks in [ALL, (0, 0), random_masks(&mut random)] {
                let found = compare(&file.bytes, &path, masks);
                assert_eq!(found, Ok(by_parts(&file, &path, masks)));
                *kinds.entry(kind(&file, &path, masks)).or_insert(0) += 1;
            }
        }
    }
    println!("{kinds:?}");
    assert_eq!(kinds.len(), 8);
    assert!(kinds.values().all(|&count| count > 50));
}

/// A block of records with these deltas and name hashes; keys count up from this one.
fn block((locale, content): (u32, u32), first_key: u8, records: &[(i32, [u8; 8])]) -> BlockParts {
    let records = (first_key..)
        .zip(records)
        .map(|(key, &(delta, name_hash))| Record {
            delta,
            key: [key; 16],
            name_hash,
        });
    BlockParts {
        locale,
        content,
        unknown: [0xdd; 5],
        records: records.collect(),
    }
}

/// The name hash of a path, as it is stored.
fn stored(path: &[u8]) -> [u8; 8] {
    name_hash(path).unwrap().to_le_bytes()
}

/// None, a long one, and good ones with numbers at both ends of what means a long header.
fn headers() -> impl Iterator<Item = Option<Header>> {
    let about = headers_about_the_bounds();
    let good = about.filter(|header| !matches!((header.a, header.b), (16..20, 1..4)));
    [None, LONG].into_iter().chain(good.map(Some))
}

/// A long header of version 3.
const LONG: Option<Header> = Some(Header {
    magic: *b"TSFM",
    a: 24,
    b: 3,
});

/// Name hashes that are literal, low half first, and ids at both ends of the range.
#[test]
fn ids_keys_and_places() {
    let question_mark = 0x9eb5_9e3c_7612_4837_u64.to_le_bytes();
    let empty = *b"\xef\xbe\xad\xde\xef\xbe\xad\xde";
    let (half, other) = (i32::MAX, [7; 8]);
    for header in headers() {
        let blocks = vec![
            block((1, 0), 1, &[(0, other), (4, empty), (-6, question_mark)]),
            block((1, 0), 4, &[]),
            block((1, 0), 5, &[(half, other), (half, stored(b"Z"))]),
        ];
        let file = RootFile::new(header, blocks);
        for (path, record, id, key) in [
            (&b""[..], (0, 1), 5, 2),
            (b"interface/icons/inv_misc_questionmark.blp", (0, 2), 0, 3),
            (b"z", (2, 1), u32::MAX, 6),
        ] {
            let place = file.key(record.0, record.1);
            let found = compare(&file.bytes, path, ALL).unwrap().unwrap();
            let expected = PathRecord {
                id,
                key: [key; 16],
                place,
            };
            assert_eq!(found, expected);
            assert_eq!(file.bytes[place..place + 16], found.key);
        }
        for absent in [&b"Interface"[..], b"/", b"\0"] {
            assert_eq!(compare(&file.bytes, absent, ALL), Ok(None));
        }
    }
}

/// Bit by bit: a block counts by each bit that its locale shares, and not by each unwanted bit of
/// its content. Bits above 31 are in no content. With a magic the bit that drops the name hashes is
/// left out.
#[test]
fn masks() {
    let hash = stored(b"a");
    for header in headers() {
        let flags = (0..32).map(|bit| 1 << bit);
        for flag in flags.filter(|&flag| header.is_none() || flag != NO_NAME_HASHES) {
            let blocks = vec![
                block((flag, flag), 7, &[(5, hash)]),
                block((u32::MAX, 0), 8, &[(6, hash)]),
            ];
            let file = RootFile::new(header, blocks).bytes;
            let id = |locale, unwanted| {
                let found = compare(&file, b"A", (locale, unwanted)).unwrap();
                found.map(|record| record.id)
            };
            assert_eq!(id(u32::MAX, 0), Some(5));
            assert_eq!(id(flag, 0), Some(5));
            assert_eq!(id(!flag, 0), Some(6));
            assert_eq!(id(0, 0), None);
            assert_eq!(id(flag, flag.into()), Some(6));
            assert_eq!(id(flag, !u64::from(flag)), Some(5));
            assert_eq!(id(u32::MAX, u64::from(u32::MAX) << 32), Some(5));
            assert_eq!(id(u32::MAX, u64::MAX), Some(6));
        }
    }
}

/// A block with the flag `NO_NAME_HASHES` is passed over, whatever its keys hold and whatever stands
/// behind it. A file without a magic has no such flag, and bit 13 is none.
#[test]
fn blocks_without_name_hashes() {
    let hash = stored(b"a");
    let mut bare = block((1, NO_NAME_HASHES), 7, &[(5, hash), (0, hash)]);
    for record in &mut bare.records {
        record.key = [hash, hash].concat().try_into().unwrap();
    }
    let named = block((1, BIT_13), 9, &[(6, hash)]);
    for header in headers() {
        let id = |blocks: &[&BlockParts]| {
            let blocks = blocks.iter().map(|&block| block.clone());
            let file = RootFile::new(header, blocks.collect());
            let found = compare(&file.bytes, b"a", ALL).unwrap();
            found.map(|record| record.id)
        };
        let of_bare = header.is_none().then_some(5);
        assert_eq!(id(&[&bare]), of_bare);
        assert_eq!(id(&[&bare, &bare]), of_bare);
        assert_eq!(id(&[&bare, &named]), of_bare.or(Some(6)));
        assert_eq!(id(&[&named, &bare]), Some(6));
    }
}

/// A name hash with its bytes or its halves exchanged, or with one bit more or less, is another.
#[test]
fn name_hashes_that_are_near() {
    let hash = name_hash(b"a").unwrap();
    let near = (0..64).map(|bit| hash ^ 1 << bit);
    for other in near.chain([hash.swap_bytes(), hash.rotate_left(32)]) {
        for header in headers() {
            let records = [(5, other.to_le_bytes()), (0, hash.to_le_bytes())];
            let file = RootFile::new(header, vec![block((1, 0), 7, &records)]).bytes;
            let found = compare(&file, b"a", ALL).unwrap();
            assert_eq!(found.map(|record| record.id), Some(6));
        }
    }
}

/// A path that is too long is refused before each refusal of the root, and with a good file too.
#[test]
fn a_long_path_is_refused_first() {
    let good = RootFile::new(LONG, vec![block((1, 0), 7, &[(5, [7; 8])])]).bytes;
    let below = RootFile::new(None, vec![block((1, 0), 7, &[(-1, [7; 8])])]).bytes;
    let mut version_4 = good.clone();
    version_4[8] = 4;
    for (file, reason) in [
        (&good[..], None),
        (&[], None),
        (b"TSFM\x14\0\0\0\x02\0\0", Some(Reason::RootHeaderCut)),
        (&version_4, Some(Reason::RootVersion)),
        (b"TSFM\x13\0\0\0\x02\0\0\0", Some(Reason::RootHeaderSize)),
        (&good[..23], Some(Reason::RootHeaderCut)),
        (&good[..good.len() - 1], Some(Reason::BlockCut)),
        (&below, Some(Reason::IdRange)),
    ] {
        let refused = compare(file, TOO_LONG, ALL).unwrap_err();
        assert_eq!(refused, refusal_at(Reason::PathLength, 0));
        for path in [&TOO_LONG[1..], b"", b"a"] {
            let answer = compare(file, path, ALL);
            assert_eq!(answer.err().map(|refused| refused.reason), reason);
        }
    }
}

/// Of faults in two blocks, or in one, the one that is judged first is told, also behind the record
/// and in blocks that do not count.
#[test]
fn root_refusals_in_their_order() {
    let mut random = Random::of_test();
    let mut tally = Tally::new("files with faults");
    let paths = [b"a".to_vec(), b"b/c".to_vec()];
    tally.add(&compare(b"", b"a", ALL));
    while tally.count < 5_000 {
        let good = RootFile::named(&mut random, &paths);
        let Some(last) = good.blocks.len().checked_sub(1) else {
            continue;
        };
        let faults = [(); 2].map(|()| {
            let block = random.up_to(last);
            let has_record = !good.blocks[block].records.is_empty();
            let id = has_record && random.one_in(2);
            (block, if id { Fault::Id } else { Fault::Cut })
        });
        let mut file = good.clone();
        for (block, fault) in faults {
            file.put_fault(&mut random, block, fault);
        }
        let [one, other] = faults;
        let (block, fault) = one.min(other);
        let refused = Err(in_library_terms(good.refusal(block, fault)));
        for masks in [ALL, (0, 0)] {
            assert_eq!(compare(&file.bytes, b"A", masks), refused, "{faults:?}");
        }
        tally.add(&refused);
    }
    tally.print([40, 41]);
}
