//! Many ids of a root file: the library against single lookups and against the second program.

mod compare;
mod raw;

use compare::{compare_outputs, in_library_terms, refusal_at};
use dwarnizza::{Reason, Refusal, Root};
use forge::faults::root::{RootFile, random_masks};
use forge::random::Random;
use second::root::{BlockParts, Record};

/// How many bytes are written for each id.
const FOUND: usize = 20;

fn bytes_of(ids: &[u32]) -> Vec<u8> {
    ids.iter().flat_map(|id| id.to_be_bytes()).collect()
}

/// What the library writes, after seeing that the second program writes the same.
#[track_caller]
fn compare(file: &[u8], ids: &[u8], masks: (u32, u64), room: usize) -> Result<Vec<u8>, Refusal> {
    compare_outputs(
        room,
        |output| raw::find_many(file, ids, masks, output),
        |output| {
            let written = second::root::find_many_into(file, ids, masks, output);
            written.map_err(in_library_terms)
        },
    )
}

/// The wrapper gives what single lookups give, or refuses the list.
#[track_caller]
fn see_wrapper(file: &[u8], ids: &[u32], (locale, unwanted): (u32, u64)) {
    let Ok(root) = Root::check(file) else { return };
    let falls = ids.windows(2).position(|pair| pair[1] < pair[0]);
    let expected = match falls {
        Some(place) => Err(refusal_at(Reason::ListFalls, place + 1)),
        None => Ok(ids
            .iter()
            .map(|&id| root.find(id, locale, unwanted).map(|record| record.key))
            .collect()),
    };
    assert_eq!(root.find_many(ids, locale, unwanted), expected);
}

/// Ids that mostly rise, with equal neighbours; of this file, beside them, and others.
fn random_ids(random: &mut Random, file: &RootFile) -> Vec<u32> {
    let count = [0, 3, 20, 60][random.up_to(3)];
    let mut ids: Vec<u32> = (0..random.up_to(count))
        .map(|_| file.any_id(random))
        .collect();
    ids.sort_unstable();
    if ids.len() > 1 && random.up_to(3) == 0 {
        let (place, other) = (random.up_to(ids.len() - 1), random.up_to(ids.len() - 1));
        ids.swap(place, other);
    }
    ids
}

/// Ids that stand in many blocks, twice in a list, at both ends of the range, and not at all.
#[test]
fn equal_neighbours_and_both_ends() {
    let record = |delta, key| Record {
        delta,
        key: [key; 16],
        name_hash: [0; 8],
    };
    let block = |locale, records| BlockParts {
        locale,
        content: 0,
        unknown: [0; 5],
        records,
    };
    let (half, far) = (i32::MAX, i32::MAX as u32);
    let blocks = vec![
        block(2, vec![record(0, 1), record(4, 2), record(-1, 3)]),
        block(1, vec![record(5, 4), record(half - 6, 5), record(half, 6)]),
        block(3, vec![record(5, 7), record(1, 8)]),
    ];
    let file = RootFile::new(None, blocks).bytes;
    let root = Root::check(&file).unwrap();
    let ids = [0, 0, 1, 5, 5, 5, 7, far, u32::MAX, u32::MAX];
    for (locale, keys) in [
        (1, [0, 0, 0, 4, 4, 4, 8, 5, 6, 6]),
        (2, [1, 1, 0, 2, 2, 2, 8, 0, 0, 0]),
        (3, [1, 1, 0, 2, 2, 2, 8, 5, 6, 6]),
        (4, [0; 10]),
    ] {
        let keys = keys.map(|key| (key > 0).then_some([key; 16]));
        assert_eq!(root.find_many(&ids, locale, 0).unwrap(), keys);
        see_wrapper(&file, &ids, (locale, 0));
    }
    assert_eq!(root.find_many(&[], 3, 0), Ok(vec![]));
}

#[test]
fn the_first_fall_is_told() {
    let root = Root::check(b"").unwrap();
    for (ids, place) in [
        (&[1, 0][..], 1),
        (&[0, 1, 1, 0, 5, 4], 3),
        (&[u32::MAX, 0, 1], 1),
        (&[256, 1], 1),
        (&[0, 1 << 31, (1 << 31) - 1], 2),
    ] {
        let refused = root.find_many(ids, 3, 0).unwrap_err();
        assert_eq!(refused, refusal_at(Reason::ListFalls, place));
        assert_eq!(
            refused.to_string(),
            format!("refused 161 at {place}: list falls (id {place})")
        );
    }
}

/// The root's own refusals, 12, 161 and 13 are told in this order.
#[test]
fn refusals_in_their_order() {
    let good = RootFile::random(&mut Random::of_test()).bytes;
    let falling = bytes_of(&[3, 2]);
    let torn = [&falling[..], &[0]].concat();
    for (file, ids, number) in [
        (&b"TSFM"[..], &torn[..], Reason::RootHeaderCut),
        (&good, &torn, Reason::ListLength),
        (&good, &falling, Reason::ListFalls),
        (&good, &bytes_of(&[2, 3]), Reason::OutputShort),
    ] {
        for room in [0, 1, 2 * FOUND - 1] {
            let refused = compare(file, ids, (u32::MAX, 0), room).unwrap_err();
            assert_eq!(refused.reason, number);
        }
    }
}

/// Files of every layout: what single lookups give, in one call.
#[test]
fn many_ids_and_single_lookups() {
    let mut random = Random::of_test();
    for _ in 0..5_000 {
        let file = RootFile::random(&mut random);
        let (ids, masks) = (random_ids(&mut random, &file), random_masks(&mut random));
        see_wrapper(&file.bytes, &ids, masks);
    }
}
