//! Key text by the second program.

use second::key::from_text;
use second::refusal;

#[test]
fn m9() {
    assert_eq!(from_text(b"00", 1), Ok(vec![0]));
    assert_eq!(from_text(b"0", 1), Err(refusal::KEY_TEXT_LENGTH));
}

#[test]
fn digits_of_either_case() {
    let text = b"0123456789abcdefABCDEF0000000000";
    let key = [
        0x01, 0x23, 0x45, 0x67, 0x89, 0xab, 0xcd, 0xef, 0xab, 0xcd, 0xef, 0, 0, 0, 0, 0,
    ];
    assert_eq!(from_text(text, 16), Ok(key.to_vec()));
    for character in 0..=u8::MAX {
        let digit = character.is_ascii_hexdigit();
        let (first, second) = (
            from_text(&[character, b'0'], 1),
            from_text(&[b'0', character], 1),
        );
        assert_eq!((first.is_ok(), second.is_ok()), (digit, digit));
        if !digit {
            assert_eq!(first, Err(refusal::hex_digit(0)));
            assert_eq!(second, Err(refusal::hex_digit(1)));
        }
    }
}

#[test]
fn refusals_in_their_order() {
    for key_length in [0, 17, 255] {
        assert_eq!(from_text(b"g", key_length), Err(refusal::SETTINGS));
    }
    for text in [&b""[..], b"g", b"gg", b"0417", b"00417", b"0004170"] {
        assert_eq!(from_text(text, 3), Err(refusal::KEY_TEXT_LENGTH));
    }
    assert_eq!(from_text(b"000417", 3), Ok(vec![0, 4, 0x17]));
    assert_eq!(from_text(b"0x04-7", 3), Err(refusal::hex_digit(1)));
    assert_eq!(from_text(b"00041 ", 3), Err(refusal::hex_digit(5)));
}
