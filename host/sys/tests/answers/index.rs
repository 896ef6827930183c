use dwarnizza_sys as ffi;
use forge::counted::of_list;
use forge::faults::index::{IndexFile, settings};
use second::index::Settings;

use crate::call::{
    ABSENT, Answer, answer, answered, filling, numbered, one_input, refused, two_inputs,
};

const LIST: [u8; 18] = [5, 0, 0, 0, 7, 0, 0, 0, 9, 6, 0, 0, 0, 8, 0, 0, 0, 7];

const SETTINGS: Settings = settings(1, 4);

/// The index of `LIST` with `SETTINGS`.
fn index() -> Vec<u8> {
    of_list(SETTINGS, &LIST)
}

/// The same with its keys in the other order, and all hashes right.
fn index_out_of_order() -> Vec<u8> {
    let (one, other) = LIST.split_at(SETTINGS.entry_len());
    IndexFile::new(SETTINGS, &[other, one].concat()).bytes
}

/// The index of the keys 05 and 08 with this offset width, whose locations begin with their key.
fn index_of_two(offset_width: u32) -> Vec<u8> {
    let mut list = Vec::new();
    for key in [5, 8] {
        list.extend([key, 0, 0, 0, 7, key]);
        list.resize(list.len() + offset_width as usize - 1, 1);
    }
    of_list(settings(1, offset_width), &list)
}

#[test]
fn check_and_list() {
    let (good, bad) = (index(), index_out_of_order());
    let check = ffi::dwarnizza_index_check;
    assert_eq!(one_input(check, &good), (0, [1, 4, 1, 2, 1, 0, 0, 0]));
    assert_eq!(one_input(check, &bad), refused(8, 1));

    let list = ffi::dwarnizza_index_list;
    let mut output = [0xee; 18];
    assert_eq!(filling(list, &bad, &mut output), refused(8, 1));
    assert_eq!(filling(list, &good, &mut output[1..]), refused(13, 0));
    assert_eq!(output, [0xee; 18]);
    assert_eq!(filling(list, &good, &mut output), answered(18));
    assert_eq!(output, LIST);
}

/// The opening checks alone decide: keys out of order pass.
#[test]
fn settings_of_an_index() {
    let settings = ffi::dwarnizza_index_settings;
    let mut bad = index_out_of_order();
    assert_eq!(one_input(settings, &bad), (0, [1, 4, 1, 2, 1, 0, 0, 0]));
    *bad.last_mut().unwrap() ^= 1;
    assert_eq!(one_input(settings, &bad), refused(3, 0));
}

#[test]
fn footer() {
    let footer = ffi::dwarnizza_index_footer;
    let index = index();
    let length = index.len() as u64;
    for bytes in [&index[..], &index[100..], &index[index.len() - 28..]] {
        assert_eq!(
            one_input(footer, bytes),
            (0, [1, 4, 1, 2, 1, length, 28, 0])
        );
    }
    assert_eq!(one_input(footer, &index[index.len() - 27..]), refused(1, 0));
    let mut bad = index;
    *bad.last_mut().unwrap() ^= 1;
    assert_eq!(one_input(footer, &bad), refused(3, 0));
}

/// Each field of the footer has its number and its place.
#[test]
fn fields_of_the_footer() {
    let calls = [
        ffi::dwarnizza_index_check,
        ffi::dwarnizza_index_settings,
        ffi::dwarnizza_index_footer,
        ffi::dwarnizza_index_bound,
    ];
    let numbers = [102, 103, 103, 104, 105, 106, 107, 108];
    for (number, place) in numbers.into_iter().zip(8..) {
        let mut bad = index();
        let start = bad.len() - 28;
        bad[start + place] = 0xff;
        for call in calls {
            assert_eq!(one_input(call, &bad), refused(number, place as u64));
        }
        let mut output = [0xee; 18];
        let refusal = filling(ffi::dwarnizza_index_list, &bad, &mut output);
        assert_eq!(refusal, refused(number, place as u64));
        assert_eq!(output, [0xee; 18]);
    }
}

/// The footer of an index of loose files: offset width 0, and the hash right.
#[test]
fn loose() {
    let loose = ffi::dwarnizza_index_loose;
    let mut index = index();
    assert_eq!(one_input(loose, &index), ABSENT);
    assert_eq!(one_input(loose, b""), ABSENT);
    let start = index.len() - 28;
    index[start + 12] = 0;
    assert_eq!(one_input(loose, &index), ABSENT);
    let mut hashed = index[start + 8..start + 20].to_vec();
    hashed.extend([0; 8]);
    let hash = second::md5::digest(&hashed).unwrap();
    index[start + 20..].copy_from_slice(&hash[..8]);
    assert_eq!(one_input(loose, &index), (0, [0; 8]));
    assert_eq!(
        one_input(ffi::dwarnizza_index_check, &index),
        refused(105, 12)
    );
}

#[test]
fn page() {
    let page = ffi::dwarnizza_index_page;
    let index = index();
    assert_eq!(
        numbered(page, &index, 0),
        (0, [0, 4096, 4096, 1, 4097, 8, 0, 2])
    );
    assert_eq!(numbered(page, &index, 1), ABSENT);
    assert_eq!(numbered(page, &index, 1 << 32), ABSENT);
    assert_eq!(numbered(page, &index[1..], 0), refused(5, 0));
}

fn entry(index: &[u8], page: u64, slot: u64) -> Answer {
    // SAFETY: pointer and length are those of one slice.
    answer(|answer| unsafe {
        ffi::dwarnizza_index_entry(index.as_ptr(), index.len(), page, slot, answer)
    })
}

#[test]
fn entry_in_a_slot() {
    let six = index_of_two(6);
    let words = [11, 1, 7, 0x0801, 0x0101_0101, 0, 1, 0];
    assert_eq!(entry(&six, 0, 1), (0, words));
    let five = index_of_two(5);
    let words = [10, 1, 7, 0, 0x08_0101_0101, 0, 1, 0];
    assert_eq!(entry(&five, 0, 1), (0, words));
    for past in [2, 1 << 32, (1 << 32) + 1, u64::MAX] {
        assert_eq!(entry(&five, 0, past), ABSENT);
    }
    for past in [1, 1 << 32, u64::MAX] {
        assert_eq!(entry(&five, past, 1), ABSENT);
    }
    assert_eq!(entry(&five[..27], 0, 0), refused(1, 0));
}

/// A full page and one entry: a slot past a page's entries is none of the next page.
#[test]
fn entry_on_a_second_page() {
    let settings = settings(2, 4);
    let full = settings.entries_per_page();
    let mut list = Vec::new();
    for key in 0..=full as u16 {
        list.extend(key.to_be_bytes());
        list.extend([0, 0, 0, 7, 0, 0, 0, 9]);
    }
    let index = of_list(settings, &list);
    let (full, length) = (full as u64, settings.entry_len() as u64);
    let last = [(full - 1) * length, 2, 7, 0, 9, 0, full - 1, 0];
    assert_eq!(entry(&index, 0, full - 1), (0, last));
    assert_eq!(entry(&index, 0, full), ABSENT);
    assert_eq!(entry(&index, 1, 0), (0, [4096, 2, 7, 0, 9, 1, 0, 0]));
    assert_eq!(entry(&index, 1, 1), ABSENT);
    assert_eq!(entry(&index, 2, 0), ABSENT);
}

#[test]
fn lookup_and_bound() {
    let (lookup, bound) = (ffi::dwarnizza_index_lookup, ffi::dwarnizza_index_bound);
    let list = [
        [5, 0, 0, 0, 7, 0, 0, 0, 0, 0, 9],
        [8, 1, 2, 3, 4, 0xa5, 0xa6, 0xa7, 0xa8, 0xa9, 0xaa],
    ];
    let mut index = of_list(settings(1, 6), list.as_flattened());
    let find = |index: &[u8], key: &[u8]| two_inputs(lookup, index, key);
    // One last key, slot 1, slot 0, and the slot that they lead to once more.
    let found = (0, [0, 1, 0x0102_0304, 0xa5a6_a7a8_a9aa, 4, 0, 0, 0]);
    assert_eq!(find(&index, &[8]), found);
    assert_eq!(find(&index, &[5]), (0, [0, 0, 7, 9, 4, 0, 0, 0]));
    assert_eq!(find(&index, &[6]), (1, [0, 0, 0, 0, 4, 0, 0, 0]));
    assert_eq!(find(&index, &[9]), (1, [0, 0, 0, 0, 1, 0, 0, 0]));
    for key in [&[][..], &[5, 0]] {
        assert_eq!(find(&index, key), refused(10, 0));
    }
    // One page, and 372 entries on a full one: 1, 9 and 1.
    assert_eq!(one_input(bound, &index), answered(11));

    *index.last_mut().unwrap() ^= 1;
    assert_eq!(find(&index, &[]), refused(3, 0));
    assert_eq!(one_input(bound, &index), refused(3, 0));
}

/// The stored last key of the second page is too high: that page is chosen, and no slot on it. The
/// answer names neither.
#[test]
fn lookup_with_no_slot_on_the_page() {
    let settings = settings(2, 6);
    let entries = settings.entries_per_page() + 1;
    let mut list = Vec::new();
    for key in 0..entries as u16 {
        list.extend(key.to_be_bytes());
        list.extend([7; 10]);
    }
    let mut index = of_list(settings, &list);
    index[2 * 4096 + 2] = 0xff;
    // Both last keys, and the page's one entry.
    let lookup = two_inputs(ffi::dwarnizza_index_lookup, &index, &[0xf0, 0]);
    assert_eq!(lookup, (1, [0, 0, 0, 0, 3, 0, 0, 0]));
}

fn write(settings: Settings, list: &[u8], output: &mut [u8]) -> Answer {
    // SAFETY: each pointer and length are those of one slice, and the slices do not overlap.
    answer(|answer| unsafe {
        ffi::dwarnizza_index_write(
            settings.version,
            settings.offset_width,
            settings.key_length,
            list.as_ptr(),
            list.len(),
            output.as_mut_ptr(),
            output.len(),
            answer,
        )
    })
}

#[test]
fn writer() {
    let mut output = vec![0xee; index().len() + 1];
    let falling = [&LIST[9..], &LIST[..9]].concat();
    let version_2 = Settings {
        version: 2,
        ..SETTINGS
    };
    for (settings, list, number, place) in [
        (version_2, &LIST[..], 11, 0),
        (SETTINGS, &LIST[1..], 12, 0),
        (SETTINGS, &falling, 8, 1),
    ] {
        let answer = write(settings, list, &mut output);
        assert_eq!(answer, refused(number, place));
    }
    assert_eq!(write(SETTINGS, &LIST, &mut output[2..]), refused(13, 0));
    assert!(output.iter().all(|&byte| byte == 0xee));

    let (file, rest) = output.split_at_mut(index().len());
    assert_eq!(write(SETTINGS, &LIST, file), answered(file.len()));
    assert!(file == index());
    assert_eq!(rest, [0xee]);
}

fn written_length(settings: Settings, list: &[u8]) -> Answer {
    // SAFETY: pointer and length are those of one slice.
    answer(|answer| unsafe {
        ffi::dwarnizza_index_written_length(
            settings.version,
            settings.offset_width,
            settings.key_length,
            list.as_ptr(),
            list.len(),
            answer,
        )
    })
}

#[test]
fn length_before_writing() {
    assert_eq!(written_length(SETTINGS, &LIST), answered(index().len()));
    assert_eq!(written_length(SETTINGS, &[]), answered(28));
    assert_eq!(written_length(SETTINGS, &LIST[1..]), refused(12, 0));
    let zeros = [0; 171 * 24];
    let sixteen = settings(16, 4);
    assert_eq!(written_length(sixteen, &zeros[..24]), answered(4148));
    assert_eq!(written_length(sixteen, &zeros), refused(8, 1));
}

/// Settings that are right in their lowest 8 or 16 bits alone.
#[test]
fn no_setting_is_cut_to_its_lowest_bits() {
    let mut output = [0xee; 28];
    let right = settings(2, 5);
    let wrong = |version, offset_width, key_length| Settings {
        version,
        offset_width,
        key_length,
    };
    for settings in [
        wrong(257, 5, 2),
        wrong(65536, 5, 2),
        wrong(1, 260, 2),
        wrong(1, 65536 + 5, 2),
        wrong(1, 5, 272),
        wrong(1, 5, u32::MAX),
    ] {
        assert_eq!(write(settings, &[], &mut output), refused(11, 0));
        assert_eq!(written_length(settings, &[]), refused(11, 0));
        assert_eq!(put(settings, &[9, 8], 0, 12).0, refused(11, 0));
    }
    assert_eq!(output, [0xee; 28]);
    assert_eq!(written_length(right, &[]), answered(28));
}

/// One entry in an output of twelve bytes.
fn put(settings: Settings, key: &[u8], archive: u32, room: usize) -> (Answer, [u8; 12]) {
    let mut output = [0xee; 12];
    let lent = &mut output[..room];
    // SAFETY: each pointer and length are those of one slice, and the slices do not overlap.
    let answer = answer(|answer| unsafe {
        ffi::dwarnizza_list_put(
            settings.version,
            settings.offset_width,
            settings.key_length,
            key.as_ptr(),
            key.len(),
            0x0102_0304,
            archive,
            0x0a_0b0c_0d0e,
            lent.as_mut_ptr(),
            lent.len(),
            answer,
        )
    });
    (answer, output)
}

#[test]
fn entry_of_a_list() {
    let settings = settings(2, 5);
    for (key, archive, number) in [(&[9][..], 1, 11), (&[9], 0, 10), (&[9, 8], 0, 13)] {
        let told = put(settings, key, archive, 10);
        assert_eq!(told, (refused(number, 0), [0xee; 12]));
    }
    let bytes = [9, 8, 1, 2, 3, 4, 0xa, 0xb, 0xc, 0xd, 0xe, 0xee];
    assert_eq!(put(settings, &[9, 8], 0, 12), (answered(11), bytes));
}

#[test]
fn listing() {
    let listing = ffi::dwarnizza_index_listing;
    let text = b"index key=1 offset=4 entries=2 pages=1\n05 7 - 9\n06 8 - 7\n";
    let mut output = [0xee; 60];
    let room = &mut output[..text.len() - 1];
    assert_eq!(filling(listing, &index(), room), answered(text.len()));
    assert_eq!(output, [0xee; 60]);
    assert_eq!(
        filling(listing, &index(), &mut output),
        answered(text.len())
    );
    let (written, rest) = output.split_at(text.len());
    assert_eq!(written, text);
    assert!(rest.iter().all(|&byte| byte == 0xee));

    let mut output = [0xee; 60];
    let bad = index_out_of_order();
    assert_eq!(filling(listing, &bad, &mut output), refused(8, 1));
    assert_eq!(output, [0xee; 60]);
}
