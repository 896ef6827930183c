//! File numbers: the library against the second program, and against decimal text by Rust.

use dwarnizza::{NotFileNumber, NumberFault, file_number};
use second::file_number::Fault;

/// What a text is by the library, after seeing that the second program says the same, and that a
/// number is told of its own text alone.
#[track_caller]
fn compare(text: &[u8]) -> Result<u32, (NumberFault, usize)> {
    let by_second = second::file_number::file_number(text).map_err(|wrong| {
        let fault = match wrong.fault {
            Fault::Empty => NumberFault::Empty,
            Fault::LeadingZero => NumberFault::LeadingZero,
            Fault::NoDigit => NumberFault::NoDigit,
            Fault::TooGreat => NumberFault::TooGreat,
        };
        NotFileNumber {
            fault,
            place: wrong.place,
        }
    });
    let told = file_number(text);
    assert_eq!(told, by_second, "the text is {}", text.escape_ascii());
    if let Ok(number) = told {
        assert_eq!(number.to_string().as_bytes(), text);
    }
    told.map_err(|wrong| (wrong.fault, wrong.place))
}

fn too_great(place: usize) -> Result<u32, (NumberFault, usize)> {
    Err((NumberFault::TooGreat, place))
}

#[test]
fn numbers_near_every_bound() {
    let powers = (0..=9).map(|digits| 10u64.pow(digits));
    let bounds = powers.chain((0..=32).map(|bits| 1 << bits));
    for number in bounds.flat_map(|bound| bound.saturating_sub(3)..=bound + 3) {
        let text = number.to_string();
        let expected = match u32::try_from(number) {
            Ok(number) => Ok(number),
            Err(_) => too_great(9),
        };
        assert_eq!(compare(text.as_bytes()), expected);
    }
}

#[test]
fn numbers_that_are_too_great() {
    for (text, place) in [
        ("4294967296", 9),
        ("4294967300", 9),
        ("4300000000", 9),
        ("5000000000", 9),
        ("9999999999", 9),
        ("10000000000", 10),
        ("42949672950", 10),
        ("42949672960", 9),
        ("18446744073709551616", 10),
        ("18446744073709551617", 10),
        ("79228162514264337593543950337", 9),
    ] {
        assert_eq!(compare(text.as_bytes()), too_great(place), "{text}");
    }
    for length in 11..100 {
        assert_eq!(compare(&vec![b'9'; length]), too_great(9));
        assert_eq!(compare(&vec![b'1'; length]), too_great(10));
    }
}

#[test]
fn the_first_fault_counts() {
    use NumberFault::{Empty, LeadingZero, NoDigit};

    assert_eq!(compare(b""), Err((Empty, 0)));
    assert_eq!(compare(b"0"), Ok(0));
    for text in [&b"00"[..], b"00417", b"0x", b"0 ", b"04294967296"] {
        assert_eq!(compare(text), Err((LeadingZero, 0)));
    }
    for (text, place) in [
        (&b" 417"[..], 0),
        (b"417 ", 3),
        (b"+417", 0),
        (b"-1", 0),
        (b"4.17E+2", 1),
        (b"1,349", 1),
        (b"O417", 0),
        (b"99999999999x", 11),
        (b"417\n", 3),
        (b"\xef\xbb\xbf417", 0),
        ("４17".as_bytes(), 0),
    ] {
        assert_eq!(compare(text), Err((NoDigit, place)));
    }
}

/// All texts of one byte and of two.
#[test]
fn every_byte() {
    for byte in 0..=u8::MAX {
        let digit = byte.is_ascii_digit();
        assert_eq!(compare(&[byte]).is_ok(), digit);
        for other in 0..=u8::MAX {
            let number = digit && byte != b'0' && other.is_ascii_digit();
            assert_eq!(compare(&[byte, other]).is_ok(), number);
        }
    }
}

#[test]
fn faults_have_words() {
    for (text, words) in [
        (&b""[..], "empty (byte 0)"),
        (b"00417", "leading zero (byte 0)"),
        (b"41O", "not a digit (byte 2)"),
        (b"4294967296", "above 4,294,967,295 (byte 9)"),
    ] {
        assert_eq!(file_number(text).unwrap_err().to_string(), words);
    }
}
