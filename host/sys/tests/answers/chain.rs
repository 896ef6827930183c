use dwarnizza_sys::dwarnizza_resolve;
use forge::counted::of_list;
use forge::faults::chain::Files;
use forge::faults::index::settings;
use forge::small;

use crate::call::{Answer, answer};

/// Files in which the id 5 is in the index, the id 6 is missing in it, the id 7 in the encoding
/// file and all others in the root file.
fn files() -> Files {
    let index = index(&[
        [0xa4, 0, 0, 0, 1, 0, 0, 0, 0, 0, 1],
        [0xa5, 1, 2, 3, 4, 5, 6, 7, 8, 9, 10],
    ]);
    [small::root(), small::encoding(16), index]
}

/// The index of entries of N bytes, with offset width 6.
fn index<const N: usize>(list: &[[u8; N]]) -> Vec<u8> {
    of_list(settings(N as u32 - 10, 6), list.as_flattened())
}

fn resolve(files: &Files, id: u32, locale: u32, unwanted: u64) -> Answer {
    let [root, encoding, index] = files;
    // SAFETY: each pointer and length are those of one slice.
    answer(|answer| unsafe {
        dwarnizza_resolve(
            root.as_ptr(),
            root.len(),
            encoding.as_ptr(),
            encoding.len(),
            index.as_ptr(),
            index.len(),
            id,
            locale,
            unwanted,
            answer,
        )
    })
}

fn absent(link: u64, compared: u64) -> Answer {
    (1, [0, 0, link, 0, compared, 0, 0, 0])
}

fn refused(number: u64, place: u64, link: u64) -> Answer {
    (2, [number, place, link, 0, 0, 0, 0, 0])
}

#[test]
fn each_call_writes_the_whole_answer() {
    let files = files();
    // One last key, slot 1, slot 0, and slot 1 once more.
    let found = (0, [0, 1, 0x0102_0304, 0x0506_0708_090a, 4, 0, 0, 0]);
    assert_eq!(resolve(&files, 5, 2, 0), found);
    assert_eq!(resolve(&files, 5, 3, !4), found);
    assert_eq!(resolve(&files, 6, 2, 0), absent(3, 1));
    assert_eq!(resolve(&files, 7, 2, 0), absent(2, 0));
    for (id, locale, unwanted) in [(4, 2, 0), (8, 2, 0), (5, 0, 0), (5, 1, 0), (5, 2, 4)] {
        assert_eq!(resolve(&files, id, locale, unwanted), absent(1, 0));
    }
}

#[test]
fn each_refusal_writes_the_whole_answer() {
    let mut files = files();
    files[2] = index(&[[0xa5, 0, 0, 0, 0, 7, 0, 0, 0, 0, 0, 9]]);
    assert_eq!(resolve(&files, 5, 2, 0), refused(10, 0, 3));

    // The second entry of the content page has 255 encoding keys, and what follows is cut.
    let page = 22 + 2 + 16 + 16;
    files[1][page + 24..page + 1024].fill(255);
    assert_eq!(resolve(&files, 5, 2, 0), refused(10, 0, 3));
    assert_eq!(resolve(&files, 6, 2, 0), refused(35, 0, 2));
    files[1] = small::encoding(15);
    assert_eq!(resolve(&files, 5, 2, 0), refused(39, 0, 2));

    // A second block, whose id is below 0.
    let second_block = files[0].len();
    files[0].extend([1, 0, 0, u32::MAX].map(u32::to_le_bytes).as_flattened());
    files[0].extend([0; 24]);
    assert_eq!(
        resolve(&files, 5, 2, 0),
        refused(41, second_block as u64, 1)
    );
}
