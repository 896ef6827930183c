//! File numbers by the second program.

use second::file_number::{Fault, NotFileNumber, file_number};

#[test]
fn numbers() {
    for number in [0, 1, 9, 10, 417, 999_999_999, 1_000_000_000, u32::MAX] {
        assert_eq!(file_number(number.to_string().as_bytes()), Ok(number));
    }
}

#[test]
fn the_first_fault_counts() {
    for (text, fault, place) in [
        ("", Fault::Empty, 0),
        ("00", Fault::LeadingZero, 0),
        ("00417", Fault::LeadingZero, 0),
        ("0x", Fault::LeadingZero, 0),
        ("x0", Fault::NoDigit, 0),
        ("417 ", Fault::NoDigit, 3),
        ("99999999999x", Fault::NoDigit, 11),
        ("4294967296", Fault::TooGreat, 9),
        ("42949672960", Fault::TooGreat, 9),
        ("10000000000", Fault::TooGreat, 10),
        ("99999999999999999999999999", Fault::TooGreat, 9),
    ] {
        let wrong = NotFileNumber { fault, place };
        assert_eq!(file_number(text.as_bytes()), Err(wrong), "{text}");
    }
}
