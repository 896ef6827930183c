//! Root files: the library against the second program.

mod compare;
mod raw;

use compare::{Tally, in_library_terms, refusal_at};
use dwarnizza::root::{PathRecord, Record};
use dwarnizza::{Reason, Refusal, Root};
use forge::faults::root::{Fault, RootFile, headers_about_the_bounds, random_flags};
use forge::paths::BIT_13;
use forge::random::Random;
use second::root::{BlockParts, Header, MAGICS, NO_NAME_HASHES, write};

/// All locales.
const ALL: u32 = u32::MAX;

/// The full check by the library, after seeing that the second program gives the same.
#[track_caller]
fn compare_check(file: &[u8]) -> Result<(), Refusal> {
    let answer = second::root::check(file).map_err(in_library_terms);
    assert_eq!(Root::check(file).map(|_| ()), answer);
    answer
}

/// The lookup by the library, after seeing that the second program gives the same.
#[track_caller]
fn compare_find(
    file: &[u8],
    id: u32,
    locale: u32,
    unwanted: u64,
) -> Result<Option<Record>, Refusal> {
    let answer = second::root::find(file, id, locale, unwanted).map_err(in_library_terms);
    let answer = answer.map(|found| {
        found.map(|found| Record {
            key: found.key,
            place: found.place,
        })
    });
    let by_library = raw::find(file, id, locale, unwanted);
    assert_eq!(by_library, answer, "the id is {id}");
    if let Ok(root) = Root::check(file) {
        assert_eq!(Ok(root.find(id, locale, unwanted)), answer);
    }
    answer
}

/// A block of records with these deltas and with keys that count up from this one.
fn block(locale: u32, content: u32, first_key: u8, deltas: &[i32]) -> BlockParts {
    let records = (first_key..)
        .zip(deltas)
        .map(|(key, &delta)| second::root::Record {
            delta,
            key: [key; 16],
            name_hash: [0xee; 8],
        });
    BlockParts {
        locale,
        content,
        unknown: [0xdd; 5],
        records: records.collect(),
    }
}

/// Headers of every layout: none, short, long of each version.
fn headers() -> Vec<Option<Header>> {
    let numbers = [
        (0, 0),
        (15, 2),
        (100, 1),
        (17, 5),
        (20, 1),
        (99, 1),
        (20, 2),
        (20, 3),
        (99, 3),
    ];
    let with_magic = MAGICS.into_iter().flat_map(|magic| {
        numbers
            .into_iter()
            .map(move |(a, b)| Some(Header { magic, a, b }))
    });
    [None].into_iter().chain(with_magic).collect()
}

/// The records of a block with these deltas, by id and the first byte of their keys, in every
/// layout; or how it is refused.
#[track_caller]
fn expect_ids(deltas: &[i32], expected: Result<&[(u32, u8)], Reason>) {
    for header in headers() {
        let file = RootFile::new(header, vec![block(1, 0, 0, deltas)]);
        match expected {
            Ok(ids) => {
                assert_eq!(compare_check(&file.bytes), Ok(()));
                for &(id, key) in ids {
                    let found = compare_find(&file.bytes, id, 1, 0).unwrap();
                    assert_eq!(found.expect("it is there").key, [key; 16]);
                }
            }
            Err(reason) => {
                let refused = refusal_at(reason, file.place(0));
                assert_eq!(compare_check(&file.bytes), Err(refused));
                assert_eq!(compare_find(&file.bytes, 5, 1, 0), Err(refused));
            }
        }
    }
}

#[test]
fn m5_to_m8() {
    let half = i32::MAX as u32;
    expect_ids(&[5, 0, 0], Ok(&[(5, 0), (6, 1), (7, 2)]));
    expect_ids(&[5, -1], Ok(&[(5, 0)]));
    expect_ids(&[0, -2], Err(Reason::IdRange));
    expect_ids(&[-1], Err(Reason::IdRange));
    expect_ids(&[i32::MAX, i32::MAX], Ok(&[(half, 0), (u32::MAX, 1)]));
    expect_ids(&[i32::MAX, i32::MAX, 0], Err(Reason::IdRange));
    // Ids at both ends, and from one to the other.
    expect_ids(&[i32::MAX, i32::MAX, -1], Ok(&[(u32::MAX, 1)]));
    expect_ids(&[i32::MAX, i32::MIN], Ok(&[(half, 0), (0, 1)]));
    expect_ids(
        &[i32::MAX, i32::MAX, i32::MIN, i32::MIN],
        Ok(&[(1 << 31, 2), (1, 3)]),
    );
    expect_ids(&[i32::MAX - 1, i32::MIN], Err(Reason::IdRange));
    expect_ids(&[i32::MIN], Err(Reason::IdRange));
    expect_ids(&[i32::MAX, i32::MAX, i32::MAX], Err(Reason::IdRange));
}

/// Both magics with all small numbers a and b, over files of all small lengths.
#[test]
fn m10_headers() {
    let mut tally = Tally::new("files");
    for magic in MAGICS {
        for b in (0..=6).chain([0x0100, 0x0200, 0x0100_0000, 0x0200_0000, u32::MAX]) {
            for a in (0..=120).chain([0x1000, 0x1400_0000, u32::MAX]) {
                let long = (16..100).contains(&a) && (1..=4).contains(&b);
                let block = if long && b > 1 { 17 } else { 12 };
                let mut file = start_of(magic, a, b);
                // Blocks of no record.
                file.resize(12 + 7 * 17, 0);
                for length in 0..=file.len() {
                    let answer = compare_check(&file[..length]);
                    tally.add(&answer);
                    let reason = answer.err().map(|refusal| refusal.reason);
                    let expected = match length {
                        0 => None,
                        1..4 => Some(Reason::BlockCut),
                        4..12 => Some(Reason::RootHeaderCut),
                        _ if long && b == 4 => Some(Reason::RootVersion),
                        _ if long && a < 20 => Some(Reason::RootHeaderSize),
                        _ if long && length < a as usize => Some(Reason::RootHeaderCut),
                        _ => {
                            let start = if long { a as usize } else { 12 };
                            let whole = (length - start).is_multiple_of(block);
                            (!whole).then_some(Reason::BlockCut)
                        }
                    };
                    assert_eq!(reason, expected, "a = {a}, b = {b}, {length} bytes");
                }
            }
        }
    }
    tally.print([40, 42, 43, 44]);
}

/// A magic and the numbers after it.
fn start_of(magic: [u8; 4], a: u32, b: u32) -> Vec<u8> {
    [magic, a.to_le_bytes(), b.to_le_bytes()].concat()
}

/// A path, and its name hash as it is stored.
const PATH: &[u8] = br"Interface\Icons\INV_Misc_QuestionMark.blp";
const NAME_HASH: [u8; 8] = 0x9eb5_9e3c_7612_4837_u64.to_le_bytes();

/// A block of two records for the locale 2, in the order of versions 2 and 3 or in that of version
/// 1. Their ids and keys count up from this number, and the second has this name hash.
fn two_records(in_version_2: bool, content: u32, first: u8, name_hash: [u8; 8]) -> Vec<u8> {
    let mut block = match in_version_2 {
        true => [2, 2, content].map(u32::to_le_bytes).concat(),
        false => [2, content, 2].map(u32::to_le_bytes).concat(),
    };
    if in_version_2 {
        block.extend([0xdd; 5]);
    }
    block.extend([first.into(), 0].map(u32::to_le_bytes).concat());
    block.extend([[first; 16], [first + 1; 16]].concat());
    if content & 1 << 28 == 0 {
        block.extend([[0xee; 8], name_hash].concat());
    }
    block
}

/// Two blocks as they stand behind headers about the bounds, with and without name hashes and with
/// the content bit 13: what the second holds is found where it stands.
#[test]
fn blocks_byte_by_byte() {
    for Header { magic, a, b } in headers_about_the_bounds() {
        let long = (16..100).contains(&a) && (1..4).contains(&b);
        let in_version_2 = long && b > 1;
        let start = if long { a as usize } else { 12 };
        for content in [0, BIT_13, NO_NAME_HASHES, BIT_13 | NO_NAME_HASHES] {
            let mut file = start_of(magic, a, b);
            file.resize(start, 0);
            file.extend(two_records(in_version_2, content, 5, [0xee; 8]));
            let second = file.len();
            file.extend(two_records(in_version_2, content, 7, NAME_HASH));
            if long && a < 20 {
                let refused = Err(refusal_at(Reason::RootHeaderSize, 0));
                assert_eq!(compare_check(&file), refused);
                continue;
            }
            let keys = second + 8 + if in_version_2 { 17 } else { 12 };
            compare_last(&file, content, keys + 16);
            let cut = Err(refusal_at(Reason::BlockCut, second));
            assert_eq!(compare_check(&file[..file.len() - 1]), cut);
            if long {
                let cut = Err(refusal_at(Reason::RootHeaderCut, 0));
                assert_eq!(compare_check(&file[..start - 1]), cut);
            }
        }
    }
}

/// Sees that the last record is found, with its key at this place, by its id and, where its block
/// has name hashes, by its path.
#[track_caller]
fn compare_last(file: &[u8], content: u32, place: usize) {
    let (id, key) = (8, [8; 16]);
    let found = Record { key, place };
    assert_eq!(compare_find(file, id, 2, 0), Ok(Some(found)));
    assert_eq!(compare_find(file, id, !2, 0), Ok(None));
    let counts = content == 0;
    let answer = compare_find(file, id, 2, content.into());
    assert_eq!(answer, Ok(counts.then_some(found)));
    let named = content & NO_NAME_HASHES == 0;
    let by_path = named.then_some(PathRecord { id, key, place });
    assert_eq!(raw::find_path(file, PATH, (2, 0)), Ok(by_path));
}

/// What the parts of a good file say: the first record of this id in a block that counts.
fn by_parts(file: &RootFile, id: u32, locale: u32, unwanted: u64) -> Option<Record> {
    let (block, record) = file.records().find(|&(block, record)| {
        file.counts(block, (locale, unwanted)) && file.id(block, record) == id
    })?;
    Some(Record {
        key: file.blocks[block].records[record].key,
        place: file.key(block, record),
    })
}

/// Each record of good files, by masks of every kind: what is found is what the parts say.
#[test]
fn every_record() {
    let mut random = Random::of_test();
    let (mut found, mut absent) = (0, 0);
    for _ in 0..3000 {
        let file = RootFile::random(&mut random);
        assert_eq!(compare_check(&file.bytes), Ok(()));
        for (block, record) in file.records() {
            let id = file.id(block, record);
            let BlockParts {
                locale, content, ..
            } = file.blocks[block];
            for (locale, unwanted) in [
                (ALL, 0),
                (locale, !u64::from(content)),
                (random_flags(&mut random), random_flags(&mut random).into()),
                (ALL, random.word()),
                (0, 0),
            ] {
                let answer = compare_find(&file.bytes, id, locale, unwanted).unwrap();
                assert_eq!(answer, by_parts(&file, id, locale, unwanted));
                match answer {
                    Some(Record { key, place }) => {
                        assert_eq!(file.bytes[place..place + 16], key);
                        found += 1;
                    }
                    None => absent += 1,
                }
            }
        }
        for id in [0, 1, i32::MAX as u32, u32::MAX, random.word() as u32] {
            let answer = compare_find(&file.bytes, id, ALL, 0).unwrap();
            assert_eq!(answer, by_parts(&file, id, ALL, 0));
        }
    }
    println!("{found} found, {absent} absent");
    assert!(found > 50_000 && absent > 50_000);
}

/// Bit by bit: a block counts by each bit that its locale shares, and not by each unwanted bit of
/// its content. Bits above 31 are in no content.
#[test]
fn masks() {
    for header in headers() {
        for bit in 0..32 {
            let flag = 1 << bit;
            let blocks = vec![block(flag, flag, 7, &[5]), block(ALL, 0, 8, &[5])];
            let file = RootFile::new(header, blocks).bytes;
            let first_byte = |locale, unwanted| {
                let found = compare_find(&file, 5, locale, unwanted).unwrap();
                found.map(|record| record.key[0])
            };
            assert_eq!(first_byte(ALL, 0), Some(7));
            assert_eq!(first_byte(flag, 0), Some(7));
            assert_eq!(first_byte(!flag, 0), Some(8));
            assert_eq!(first_byte(0, 0), None);
            assert_eq!(first_byte(flag, flag.into()), Some(8));
            assert_eq!(first_byte(flag, !u64::from(flag)), Some(7));
            assert_eq!(first_byte(ALL, u64::from(u32::MAX) << 32), Some(7));
            assert_eq!(first_byte(ALL, u64::MAX), Some(8));
        }
    }
}

/// Of faults in two blocks, or in one, the one that is judged first is told.
#[test]
fn block_by_block() {
    let mut random = Random::of_test();
    let mut tally = Tally::new("files with faults");
    tally.add(&compare_check(&RootFile::random(&mut random).bytes));
    while tally.count < 20_000 {
        let good = RootFile::random(&mut random);
        let mut faults = Vec::new();
        for (number, block) in good.blocks.iter().enumerate() {
            faults.push((number, Fault::Cut));
            if !block.records.is_empty() {
                faults.push((number, Fault::Id));
            }
        }
        for &one in &faults {
            for &other in &faults {
                let mut file = good.clone();
                for (block, fault) in [one, other] {
                    file.put_fault(&mut random, block, fault);
                }
                let (block, fault) = one.min(other);
                let refused = in_library_terms(good.refusal(block, fault));
                let answer = compare_check(&file.bytes);
                assert_eq!(answer, Err(refused), "{one:?} and {other:?}");
                // Blocks that do not count are checked too.
                assert_eq!(compare_find(&file.bytes, 5, 0, 0), Err(refused));
                tally.add(&answer);
            }
        }
    }
    tally.print([40, 41]);
}

/// Each start of small files of every layout, and each byte of them with each value.
#[test]
fn every_byte() {
    let mut tally = Tally::new("files");
    for header in headers() {
        let blocks = [
            block(2, 1 | BIT_13, 7, &[5, -1]),
            block(1, 0, 9, &[]),
            block(3, NO_NAME_HASHES, 10, &[4]),
        ];
        let good = write(header, &blocks);
        let mut compare = |file: &[u8]| {
            tally.add(&compare_check(file));
            for (id, locale, unwanted) in [(5, ALL, 0), (4, 2, 1)] {
                let _ = compare_find(file, id, locale, unwanted);
            }
        };
        for length in 0..=good.len() {
            compare(&good[..length]);
        }
        for at in 0..good.len() {
            let mut file = good.clone();
            for value in 0..=u8::MAX {
                file[at] = value;
                compare(&file);
            }
        }
    }
    tally.print(40..=44);
}
