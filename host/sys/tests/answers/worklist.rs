use dwarnizza_sys::{
    dwarnizza_worklist_field, dwarnizza_worklist_row, dwarnizza_worklist_unquoted,
};

use crate::call::{ABSENT, Answer, answer, answered, filling, refused};

fn row(text: &[u8], at: usize, separator: u32) -> Answer {
    // SAFETY: pointer and length are those of one slice.
    answer(|answer| unsafe {
        dwarnizza_worklist_row(text.as_ptr(), text.len(), at, separator, answer)
    })
}

fn field(text: &[u8], at: usize, separator: u32, column: usize) -> Answer {
    // SAFETY: pointer and length are those of one slice.
    answer(|answer| unsafe {
        dwarnizza_worklist_field(text.as_ptr(), text.len(), at, separator, column, answer)
    })
}

/// End, next, fields, whether it is malformed, and where.
fn told(words: [u64; 5]) -> Answer {
    let [a, b, c, d, e] = words;
    (0, [a, b, c, d, e, 0, 0, 0])
}

const COMMA: u32 = b',' as u32;

#[test]
fn each_call_writes_the_whole_answer() {
    let text = b"a,\"b,c\"\nd";
    assert_eq!(row(text, 0, COMMA), told([7, 8, 2, 0, 0]));
    assert_eq!(row(text, 8, COMMA), told([9, 9, 1, 0, 0]));
    assert_eq!(field(text, 0, COMMA, 0), told([0, 1, 0, 0, 0]));
    assert_eq!(field(text, 0, COMMA, 1), told([2, 5, 1, 0, 0]));
    for at in [9, 10, usize::MAX] {
        assert_eq!(row(text, at, COMMA), ABSENT);
        assert_eq!(field(text, at, COMMA, 0), ABSENT);
    }
    for column in [2, usize::MAX] {
        assert_eq!(field(text, 0, COMMA, column), ABSENT);
    }
}

#[test]
fn a_malformed_row_has_its_place_and_no_field() {
    let behind = b"\"a\"x,b\r\nc";
    assert_eq!(row(behind, 0, COMMA), told([6, 8, 0, 1, 3]));
    let open = b"x,\"y\nz";
    assert_eq!(row(open, 0, COMMA), told([4, 5, 0, 1, 2]));
    assert_eq!(row(open, 5, COMMA), told([6, 6, 1, 0, 0]));
    for text in [&behind[..], open] {
        assert_eq!(field(text, 0, COMMA, 0), ABSENT);
    }
}

#[test]
fn every_separator_is_judged_first() {
    for separator in (0..=300).chain([1 << 8 | COMMA, 1 << 31 | COMMA, u32::MAX]) {
        let none = matches!(separator, 10 | 13 | 34 | 256..);
        for (at, text) in [(0, &b"\"open"[..]), (9, b""), (0, b"\n")] {
            let refused = refused(11, 0);
            assert_eq!(row(text, at, separator) == refused, none, "{separator}");
            assert_eq!(
                field(text, at, separator, 0) == refused,
                none,
                "{separator}"
            );
        }
    }
}

#[test]
fn unquoted_bytes_fill_the_output_and_no_more() {
    for (field, content) in [
        (&b""[..], &b""[..]),
        (b"\"\"", b""),
        (b"\"a\"\"b\"", b"a\"b"),
        (b"\"\"\"\"", b"\""),
        (b"a\"b", b"a\"b"),
        (b"\"", b"\""),
        (b"\"a", b"\"a"),
        (b"\"a\"b", b"\"a\"b"),
        (b"\"a\"\"", b"\"a\"\""),
        (b"\"a\"b\"", b"\"a\"b\""),
    ] {
        for room in 0..10 {
            let mut output = vec![0xee; room];
            let mut expected = output.clone();
            let answer = match expected.get_mut(..content.len()) {
                Some(start) => {
                    start.copy_from_slice(content);
                    answered(content.len())
                }
                None => refused(13, 0),
            };
            assert_eq!(
                filling(dwarnizza_worklist_unquoted, field, &mut output),
                answer
            );
            assert_eq!(output, expected);
        }
    }
}
