//! Worklists by the second program.

use second::refusal;
use second::worklist::{Field, Row, field, row, unquoted, unquoted_into};

const COMMA: u32 = b',' as u32;

/// End, next, and the number of fields or the place where the row is malformed.
fn told(text: &[u8], at: usize) -> Option<(usize, usize, Result<usize, usize>)> {
    let row = row(text, at, COMMA).unwrap();
    row.map(|Row { end, next, fields }| (end, next, fields.map(|fields| fields.len())))
}

#[test]
fn rows() {
    let text = b"a,\"b,c\"\nd";
    assert_eq!(told(text, 0), Some((7, 8, Ok(2))));
    assert_eq!(told(text, 8), Some((9, 9, Ok(1))));
    assert_eq!((told(text, 9), told(text, 10)), (None, None));
    // A row may be asked for at any byte: here in a quoted field.
    assert_eq!(told(text, 3), Some((7, 8, Ok(2))));
    assert_eq!(told(b"\"a\"x,b\r\nc", 0), Some((6, 8, Err(3))));
    assert_eq!(told(b"x,\"y\nz", 0), Some((4, 5, Err(2))));
    assert_eq!(told(b"x,\"y\nz", 5), Some((6, 6, Ok(1))));
}

#[test]
fn line_ends() {
    assert_eq!(told(b"a\nb", 0), Some((1, 2, Ok(1))));
    assert_eq!(told(b"a\r\nb", 0), Some((1, 3, Ok(1))));
    assert_eq!(told(b"a\rb", 0), Some((1, 2, Ok(1))));
    assert_eq!(told(b"a\r", 0), Some((1, 2, Ok(1))));
    assert_eq!(told(b"\r\n", 0), Some((0, 2, Ok(1))));
    assert_eq!(told(b"\r\n", 1), Some((1, 2, Ok(1))));
    assert_eq!(told(b"\"\r\n\"\r\r\n", 0), Some((4, 5, Ok(1))));
}

#[test]
fn fields() {
    let text = b"a,\"b\"\"\",,\"\"\n";
    let found = |column| field(text, 0, COMMA, column).unwrap();
    let at = |place, length, quoted| {
        Some(Field {
            place,
            length,
            quoted,
        })
    };
    assert_eq!(found(0), at(0, 1, false));
    assert_eq!(found(1), at(2, 5, true));
    assert_eq!(found(2), at(8, 0, false));
    assert_eq!(found(3), at(9, 2, true));
    assert_eq!((found(4), found(usize::MAX)), (None, None));
    assert_eq!(field(text, text.len(), COMMA, 0), Ok(None));
    assert_eq!(field(b"a,\"", 0, COMMA, 0), Ok(None));
}

#[test]
fn separators() {
    for separator in [10, 13, 34, 256, 300, u32::MAX] {
        assert_eq!(row(b"", 9, separator), Err(refusal::SETTINGS));
        assert_eq!(field(b"\"", 0, separator, 0), Err(refusal::SETTINGS));
    }
    for separator in [0, 9, 59, 124, 255] {
        let text = [b'a', separator as u8, b'b'];
        assert_eq!(
            row(&text, 0, separator)
                .unwrap()
                .unwrap()
                .fields
                .unwrap()
                .len(),
            2
        );
    }
}

#[test]
fn contents() {
    assert_eq!(unquoted(b"\"a,\r\n\"\"b\"\"\""), b"a,\r\n\"b\"");
    for whole in [
        &b""[..],
        b"a",
        b"a\"b\"",
        b"\"",
        b"\"a",
        b"\"a\"b",
        b"\"\"\"",
        b"\"\"a\"",
    ] {
        assert_eq!(unquoted(whole), whole);
    }
}

#[test]
fn contents_into_an_output() {
    let mut output = [0xee; 4];
    assert_eq!(unquoted_into(b"\"a\"\"b\"", &mut output), Ok(3));
    assert_eq!(output, *b"a\"b\xee");
    assert_eq!(
        unquoted_into(b"abcde", &mut output),
        Err(refusal::OUTPUT_TOO_SHORT)
    );
    assert_eq!(output, *b"a\"b\xee");
}
