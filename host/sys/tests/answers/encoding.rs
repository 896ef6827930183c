use dwarnizza_sys::{
    dwarnizza_encoding_check, dwarnizza_encoding_find_content, dwarnizza_encoding_find_encoding,
    dwarnizza_encoding_spec,
};
use forge::small::encoding_parts;
use second::encoding::write;

use crate::call::{ABSENT, Answer, numbered, one_input, refused, two_inputs};

/// Where the specs and the content pages stand in the file of these parts.
const SPECS: u64 = 22;
const CONTENT_PAGES: [u64; 2] = [63, 1087];

fn check(file: &[u8]) -> Answer {
    one_input(dwarnizza_encoding_check, file)
}

fn find_content(file: &[u8], key: &[u8]) -> Answer {
    two_inputs(dwarnizza_encoding_find_content, file, key)
}

fn find_encoding(file: &[u8], key: &[u8]) -> Answer {
    two_inputs(dwarnizza_encoding_find_encoding, file, key)
}

fn spec(file: &[u8], number: u32) -> Answer {
    numbered(dwarnizza_encoding_spec, file, number)
}

fn found([a, b, c, d]: [u64; 4]) -> Answer {
    (0, [a, b, c, d, 0, 0, 0, 0])
}

#[test]
fn each_call_writes_the_whole_answer() {
    let file = write(&encoding_parts());
    assert_eq!(check(&file), (0, [0; 8]));

    let entry = found([0x01_0203_0405, 2, CONTENT_PAGES[0] + 8, 2]);
    assert_eq!(find_content(&file, &[0, 5]), entry);
    let entry = found([0, 1, CONTENT_PAGES[1] + 8, 1]);
    assert_eq!(find_content(&file, &[0, 8]), entry);
    for absent in [[0, 4], [0, 6], [1, 0]] {
        assert_eq!(find_content(&file, &absent), ABSENT);
    }

    let entry = found([1, 0x06_0708_090a, SPECS + 2, 2]);
    assert_eq!(find_encoding(&file, &[0xa1]), entry);
    assert_eq!(find_encoding(&file, &[0xa0]), ABSENT);

    assert_eq!(spec(&file, 0), found([SPECS, 1, 0, 0]));
    assert_eq!(spec(&file, 1), found([SPECS + 2, 2, 0, 0]));
}

#[test]
fn each_refusal_writes_the_whole_answer() {
    let mut file = write(&encoding_parts());
    for key in [&[][..], &[5, 5, 5]] {
        assert_eq!(find_content(&file, key), refused(39, 0));
        assert_eq!(find_encoding(&file, key), refused(39, 0));
    }
    assert_eq!(spec(&file, 2), refused(38, 0));

    // The last spec is not closed.
    file[SPECS as usize + 4] = b'z';
    assert_eq!(check(&file), refused(33, 0));
    assert_eq!(find_content(&file, &[]), refused(33, 0));
    assert_eq!(find_encoding(&file, &[]), refused(33, 0));
    assert_eq!(spec(&file, 9), refused(33, 0));

    let mut faulty = encoding_parts();
    faulty.encoding.pages[0][14] = 2;
    let file = write(&faulty);
    assert_eq!(check(&file), refused(38, 0));
    assert_eq!(find_encoding(&file, &[0xa2]), refused(38, 0));
    faulty.content.pages[1][7] = 5;
    assert_eq!(check(&write(&faulty)), refused(36, 1));
    // Entries of 255 encoding keys, of which the last is cut.
    faulty.content.pages[1].resize(1024, 255);
    let file = write(&faulty);
    assert_eq!(check(&file), refused(35, 1));
    assert_eq!(find_content(&file, &[0, 6]), refused(35, 1));
}
