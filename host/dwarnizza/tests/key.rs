//! Key text: the library against the second program.

mod compare;

use compare::{Tally, in_library_terms, refusal_at};
use dwarnizza::{Key, Reason, Refusal};
use forge::random::Random;

/// The key of a text by the library, after seeing that the second program gives the same.
#[track_caller]
fn compare(text: &[u8], key_length: u8) -> Result<Vec<u8>, Refusal> {
    let answer = second::key::from_text(text, key_length.into()).map_err(in_library_terms);
    let key = Key::from_text(text, key_length);
    let bytes = key.map(|key| key.as_bytes().to_vec());
    assert_eq!(bytes, answer, "the text is {}", text.escape_ascii());
    answer
}

fn refused(reason: Reason, place: usize) -> Result<Vec<u8>, Refusal> {
    Err(refusal_at(reason, place))
}

#[test]
fn m9() {
    assert_eq!(compare(b"00", 1), Ok(vec![0]));
    assert_eq!(compare(b"0", 1), refused(Reason::KeyTextLength, 0));
}

/// 00417 is the text of no key, nor is 417; 0417 is one of two bytes.
#[test]
fn a_short_key_is_not_padded() {
    for key_length in 1..=16 {
        for text in [&b"00417"[..], b"417", b"0417", b"000417"] {
            let expected = match (text, key_length) {
                (b"0417", 2) => Ok(vec![4, 0x17]),
                (b"000417", 3) => Ok(vec![0, 4, 0x17]),
                _ => refused(Reason::KeyTextLength, 0),
            };
            assert_eq!(compare(text, key_length), expected);
        }
    }
}

/// What a reader of numbers may take besides digits.
#[test]
fn nothing_but_digits() {
    for (text, place) in [
        (&b"0x41"[..], 1),
        (b"+417", 0),
        (b"-417", 0),
        (b" 417", 0),
        (b"417 ", 3),
        (b"41\n7", 2),
        (b"4_17", 1),
        (b"041g", 3),
        (b"041G", 3),
        (b"04h\0", 2),
        ("4é1".as_bytes(), 1),
        ("１7".as_bytes(), 0),
    ] {
        assert_eq!(compare(text, 2), refused(Reason::HexDigit, place));
    }
}

/// All texts of two characters.
#[test]
fn every_byte() {
    let mut tally = Tally::new("texts of two characters");
    for text in (0..=u16::MAX).map(u16::to_be_bytes) {
        tally.add(&compare(&text, 1));
    }
    tally.print([61]);
}

/// All characters at each place of a text, for each key length.
#[test]
fn every_character_at_every_place() {
    let mut random = Random::of_test();
    let mut tally = Tally::new("texts with a chosen character");
    for key_length in 1..=16 {
        let length = 2 * usize::from(key_length);
        for place in 0..length {
            for character in 0..=u8::MAX {
                let mut text = digits(&mut random, length);
                text[place] = character;
                let answer = compare(&text, key_length);
                if !character.is_ascii_hexdigit() {
                    assert_eq!(answer, refused(Reason::HexDigit, place));
                }
                tally.add(&answer);
            }
        }
    }
    tally.print([61]);
}

/// All lengths of a text up to 40 for all key lengths: 11, then 60, whatever the characters.
#[test]
fn every_length() {
    let mut random = Random::of_test();
    let mut tally = Tally::new("texts of each length");
    for key_length in 0..=u8::MAX {
        for length in 0..=40 {
            let text = digits(&mut random, length);
            let answer = compare(&text, key_length);
            let expected = if !(1..=16).contains(&key_length) {
                Some(Reason::Settings)
            } else if length != 2 * usize::from(key_length) {
                Some(Reason::KeyTextLength)
            } else {
                None
            };
            tally.add(&answer);
            assert_eq!(answer.err().map(|refusal| refusal.reason), expected);
            if expected.is_some() {
                let bad = vec![b'g'; length];
                let answer = compare(&bad, key_length);
                tally.add(&answer);
                assert_eq!(answer.err().map(|refusal| refusal.reason), expected);
            }
        }
    }
    tally.print([11, 60]);
}

/// Hex digits of either case, `length` of them.
fn digits(random: &mut Random, length: usize) -> Vec<u8> {
    let digits = b"0123456789abcdefABCDEF";
    (0..length)
        .map(|_| digits[random.up_to(digits.len() - 1)])
        .collect()
}
