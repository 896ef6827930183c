use dwarnizza_sys::dwarnizza_file_number;

use crate::call::{Answer, answered, one_input};

/// What is wrong, and where.
fn wrong(fault: u64, place: u64) -> Answer {
    (1, [fault, place, 0, 0, 0, 0, 0, 0])
}

#[test]
fn each_call_writes_the_whole_answer() {
    for (text, answer) in [
        (&b"0"[..], answered(0)),
        (b"417", answered(417)),
        (b"4294967295", answered(4_294_967_295)),
        (b"", wrong(1, 0)),
        (b"00", wrong(2, 0)),
        (b"0x", wrong(2, 0)),
        (b"41 7", wrong(3, 2)),
        (b"4294967296", wrong(4, 9)),
        (b"99999999999", wrong(4, 9)),
        (b"99999999999x", wrong(3, 11)),
    ] {
        let text_words = text.escape_ascii().to_string();
        assert_eq!(
            one_input(dwarnizza_file_number, text),
            answer,
            "{text_words}"
        );
    }
}
