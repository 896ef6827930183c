use dwarnizza_sys::{
    dwarnizza_root_check, dwarnizza_root_find, dwarnizza_root_find_many, dwarnizza_root_find_path,
};
use second::root::{BlockParts, Header, Layout, Record};

use crate::call::{ABSENT, Answer, answer, answered, one_input, refused};

const UNTOUCHED: [u8; 16] = [0xee; 16];

/// The name hash of `a/B`.
const NAME_HASH: u64 = 0x98e9_b8ae_6c3b_a87e;

/// A short header and two blocks, for the locales 1 and 2: the id 5 has a key of sevens in the
/// first and, with content flag 1, of eights in the second. Both have the name hash of `a/B`.
fn file() -> Vec<u8> {
    let block = |locale, content, key| BlockParts {
        locale,
        content,
        unknown: [0; 5],
        records: vec![Record {
            delta: 5,
            key: [key; 16],
            name_hash: NAME_HASH.to_le_bytes(),
        }],
    };
    second::root::write(Some(HEADER), &[block(1, 0, 7), block(2, 1, 8)])
}

const HEADER: Header = Header {
    magic: *b"TSFM",
    a: 2,
    b: 0,
};

/// How many bytes of a block stand before its delta.
fn block_header() -> usize {
    Layout::behind(Some(HEADER)).block_header
}

/// Where the second block stands in the file: behind the header and the first, whose one record has
/// 28 bytes.
fn second_block() -> usize {
    12 + block_header() + 28
}

/// The answer, and the key that was lent.
fn find(file: &[u8], id: u32, locale: u32, unwanted: u64) -> (Answer, [u8; 16]) {
    let mut key = UNTOUCHED;
    let (start, length) = (file.as_ptr(), file.len());
    // SAFETY: pointer and length are those of one slice.
    let answer = answer(|answer| unsafe {
        dwarnizza_root_find(start, length, id, locale, unwanted, &mut key, answer)
    });
    (answer, key)
}

#[test]
fn each_call_writes_the_whole_answer() {
    let file = file();
    assert_eq!(one_input(dwarnizza_root_check, &file), (0, [0; 8]));
    let blocks = [12, second_block()];
    for (locale, block, key) in [(1, 0, [7; 16]), (2, 1, [8; 16]), (3, 0, [7; 16])] {
        let found = (answered(blocks[block] + block_header() + 4), key);
        assert_eq!(find(&file, 5, locale, 0), found);
    }
    for (id, locale, unwanted) in [(4, 3, 0), (6, 3, 0), (5, 0, 0), (5, 4, 0), (5, 2, 1)] {
        assert_eq!(find(&file, id, locale, unwanted), (ABSENT, UNTOUCHED));
    }
}

#[test]
fn each_refusal_writes_the_whole_answer() {
    let mut file = file();
    let expect = |file: &[u8], number: u64, place: usize| {
        let refused = refused(number, place as u64);
        assert_eq!(one_input(dwarnizza_root_check, file), refused);
        assert_eq!(find(file, 5, 1, 0), (refused, UNTOUCHED));
    };
    expect(&file[..file.len() - 1], 40, second_block());
    // The sign of the second block's delta.
    file[second_block() + block_header() + 3] = 0x80;
    expect(&file, 41, second_block());
    file[4] = 20;
    file[8] = 4;
    expect(&file, 44, 0);
}

/// The answer, and the output that was lent, of this length.
fn find_many(
    file: &[u8],
    ids: &[u8],
    locale: u32,
    unwanted: u64,
    room: usize,
) -> (Answer, Vec<u8>) {
    let mut output = vec![0xee; room];
    let (start, length) = (file.as_ptr(), file.len());
    let (list, list_length) = (ids.as_ptr(), ids.len());
    let to = output.as_mut_ptr();
    // SAFETY: each pointer and length are those of one slice, and the slices do not overlap.
    let answer = answer(|answer| unsafe {
        dwarnizza_root_find_many(
            start,
            length,
            list,
            list_length,
            locale,
            unwanted,
            to,
            room,
            answer,
        )
    });
    (answer, output)
}

fn list(ids: &[u32]) -> Vec<u8> {
    ids.iter().flat_map(|id| id.to_be_bytes()).collect()
}

/// For each id what is said of it, by the key's bytes, then the bytes that stay.
fn expected(keys: &[Option<u8>], room: usize) -> Vec<u8> {
    let mut output: Vec<u8> = Vec::new();
    for key in keys {
        output.extend([key.is_some().into(), 0, 0, 0]);
        output.extend([key.unwrap_or(0); 16]);
    }
    output.resize(room, 0xee);
    output
}

#[test]
fn many_ids_fill_the_output_and_no_more() {
    let (file, ids) = (file(), list(&[4, 5, 5, 6]));
    for (locale, unwanted, key) in [
        (1, 0, Some(7)),
        (2, 0, Some(8)),
        (3, 0, Some(7)),
        (2, 1, None),
    ] {
        for room in [80, 81, 200] {
            let written = expected(&[None, key, key, None], room);
            let found = find_many(&file, &ids, locale, unwanted, room);
            assert_eq!(found, (answered(80), written));
        }
    }
    for room in [0, 20] {
        assert_eq!(
            find_many(&file, &[], 1, 0, room),
            (answered(0), expected(&[], room))
        );
    }
}

/// Each refusal comes before those after it, and keeps the output.
#[test]
fn many_ids_refuse_in_order() {
    let file = file();
    let mut falling = list(&[5, 6, 6, 4, 3]);
    let expect = |file: &[u8], ids: &[u8], room: usize, number: u64, place: usize| {
        let kept = (refused(number, place as u64), expected(&[], room));
        assert_eq!(find_many(file, ids, 1, 0, room), kept);
    };
    expect(&file, &list(&[5, 5]), 39, 13, 0);
    expect(&file, &falling, 39, 161, 3);
    falling.push(0);
    expect(&file, &falling, 39, 12, 0);
    expect(&file[..file.len() - 1], &falling, 39, 40, second_block());
}

/// The answer, and the key that was lent.
fn find_path(file: &[u8], path: &[u8], locale: u32, unwanted: u64) -> (Answer, [u8; 16]) {
    let mut key = UNTOUCHED;
    let (start, length) = (file.as_ptr(), file.len());
    let (path, path_length) = (path.as_ptr(), path.len());
    // SAFETY: each pointer and length are those of one slice.
    let answer = answer(|answer| unsafe {
        dwarnizza_root_find_path(
            start,
            length,
            path,
            path_length,
            locale,
            unwanted,
            &mut key,
            answer,
        )
    });
    (answer, key)
}

#[test]
fn a_path_has_id_place_and_key() {
    let file = file();
    let blocks = [12, second_block()];
    for (locale, block, key) in [(1, 0, [7; 16]), (2, 1, [8; 16]), (3, 0, [7; 16])] {
        let place = (blocks[block] + block_header() + 4) as u64;
        let found = ((0, [5, place, 0, 0, 0, 0, 0, 0]), key);
        for path in [b"a/B", b"A\\b"] {
            assert_eq!(find_path(&file, path, locale, 0), found);
        }
    }
    for (path, locale, unwanted) in [
        (&b"a"[..], 3, 0),
        (b"", 3, 0),
        (b"a/b", 4, 0),
        (b"a/b", 2, 1),
    ] {
        assert_eq!(
            find_path(&file, path, locale, unwanted),
            (ABSENT, UNTOUCHED)
        );
    }
}

/// Each refusal comes before those after it, and keeps the key.
#[test]
fn a_path_refuses_in_order() {
    let mut file = file();
    let (long, longest) = ([b'a'; 1025], [b'a'; 1024]);
    let expect = |file: &[u8], path: &[u8], number: u64, place: usize| {
        let kept = (refused(number, place as u64), UNTOUCHED);
        assert_eq!(find_path(file, path, 1, 0), kept);
    };
    assert_eq!(find_path(&file, &longest, 1, 0), (ABSENT, UNTOUCHED));
    expect(&file, &long, 110, 0);
    expect(&file[..file.len() - 1], b"a/b", 40, second_block());
    // The sign of the second block's delta.
    file[second_block() + block_header() + 3] = 0x80;
    expect(&file, b"a/b", 41, second_block());
    file[4] = 20;
    file[8] = 4;
    expect(&file, &longest, 44, 0);
    expect(&file, &long, 110, 0);
}
