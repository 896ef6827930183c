//! Worklists: the library against the second program, and the laws of rows and fields.

mod compare;
mod raw;

use compare::{compare_outputs, in_library_terms, refusal_at};
use dwarnizza::worklist::{Malformed, Row};
use dwarnizza::{Reason, Worklist};
use forge::random::Random;
use second::worklist::Field;

const COMMA: u8 = b',';

/// What a row is, by the second program, in the words of the library.
fn row_words(text: &[u8], at: usize, separator: u32) -> Result<Option<[u64; 8]>, Reason> {
    let row = second::worklist::row(text, at, separator);
    let row = row.map_err(|refusal| in_library_terms(refusal).reason)?;
    Ok(row.map(|row| {
        let (fields, malformed, place) = match row.fields {
            Ok(fields) => (fields.len(), 0, 0),
            Err(place) => (0, 1, place),
        };
        let [end, next, fields, place] = [row.end, row.next, fields, place].map(|n| n as u64);
        [end, next, fields, malformed, place, 0, 0, 0]
    }))
}

/// The words of the row that begins here, after seeing that both programs say the same of it and of
/// its fields.
#[track_caller]
fn compare_row(text: &[u8], at: usize, separator: u8) -> Option<[u64; 8]> {
    let said = || format!("{:?} at {at}, separator {separator}", text.escape_ascii());
    let separator = separator.into();
    let words = raw::row(text, at, separator).expect("the separator is one");
    assert_eq!(row_words(text, at, separator), Ok(words), "{}", said());
    let fields = words.map_or(0, |words| words[2] as usize);
    for column in (0..=fields + 1).chain([usize::MAX]) {
        let by_second = second::worklist::field(text, at, separator, column).unwrap();
        let by_second = by_second.map(|field: Field| {
            let (place, length) = (field.place as u64, field.length as u64);
            [place, length, field.quoted.into(), 0, 0, 0, 0, 0]
        });
        assert_eq!(by_second.is_some(), column < fields, "{}", said());
        let field = raw::field(text, at, separator, column);
        assert_eq!(field, Ok(by_second), "{}, column {column}", said());
    }
    words
}

/// The row's fields joined by the separator are the row. A plain field has no separator or line
/// end; a quoted one is its content, with each quote doubled, in quotes.
#[track_caller]
fn see_fields(row: Row, fields: usize, separator: u8) {
    let list: Vec<_> = (0..fields).map(|column| row.field(column)).collect();
    let list: Vec<_> = list.into_iter().map(|field| field.unwrap()).collect();
    let bytes: Vec<&[u8]> = list.iter().map(|field| field.bytes).collect();
    assert_eq!(bytes.join(&separator), row.bytes());
    for field in list {
        let content = field.content();
        if field.quoted {
            let doubled: Vec<u8> = content
                .iter()
                .flat_map(|&byte| vec![byte; if byte == b'"' { 2 } else { 1 }])
                .collect();
            assert_eq!(field.bytes, [b"\"", &doubled[..], b"\""].concat());
        } else {
            let ends = |byte: &u8| *byte == separator || b"\r\n".contains(byte);
            assert!(!field.bytes.iter().any(ends));
            assert_eq!(content, field.bytes);
        }
    }
}

/// The rows of a text, after seeing that each is as the second program says, and that with their
/// line ends they are the text.
#[track_caller]
fn compare_rows(text: &[u8], separator: u8) -> Vec<Row<'_>> {
    let rows: Vec<Row> = Worklist::new(text, separator).unwrap().rows().collect();
    let mut at = 0;
    for row in &rows {
        let words = compare_row(text, at, separator).expect("a row begins here");
        assert_eq!(row.start(), at);
        assert_eq!([row.end(), row.next()].map(|n| n as u64), words[..2]);
        let line_end = &text[row.end()..row.next()];
        let last = row.next() == text.len() && line_end.is_empty();
        assert!(last || [&b"\n"[..], b"\r\n", b"\r"].contains(&line_end));
        assert_eq!(row.bytes(), &text[at..row.end()]);
        match row.fields() {
            Ok(fields) => see_fields(*row, fields, separator),
            Err(Malformed { place }) => {
                assert_eq!((words[3], words[4]), (1, place as u64));
                assert_eq!(row.field(0), None);
            }
        }
        at = row.next();
    }
    assert_eq!(at, text.len());
    rows
}

/// Fields of all rows, or the place where a row is malformed.
#[track_caller]
fn fields(text: &[u8]) -> Vec<Result<Vec<Vec<u8>>, usize>> {
    let rows = compare_rows(text, COMMA).into_iter();
    let fields = rows.map(|row| match row.fields() {
        Ok(fields) => Ok((0..fields)
            .map(|column| row.field(column).unwrap().content().into_owned())
            .collect()),
        Err(Malformed { place }) => Err(place),
    });
    fields.collect()
}

/// The fields of a row, as texts.
fn of(texts: &[&str]) -> Result<Vec<Vec<u8>>, usize> {
    Ok(texts.iter().map(|text| text.as_bytes().to_vec()).collect())
}

#[test]
fn fields_of_plain_and_quoted_rows() {
    assert_eq!(fields(b""), []);
    assert_eq!(fields(b"a,\"b,c\"\nd"), [of(&["a", "b,c"]), of(&["d"])]);
    assert_eq!(fields(b"\n"), [of(&[""])]);
    assert_eq!(fields(b","), [of(&["", ""])]);
    assert_eq!(fields(b",\n,"), [of(&["", ""]), of(&["", ""])]);
    assert_eq!(fields(b"\"\",\"\"\"\""), [of(&["", "\""])]);
    assert_eq!(fields(b"a\"b\"c, \"d\""), [of(&["a\"b\"c", " \"d\""])]);
    assert_eq!(
        fields(b"\"a\r\nb\rc\nd\"\r\ne"),
        [of(&["a\r\nb\rc\nd"]), of(&["e"])]
    );
}

#[test]
fn every_line_end() {
    for end in ["\n", "\r\n", "\r"] {
        for last in ["", end] {
            let text = format!("1,2{end}{end}3{last}");
            let rows = [of(&["1", "2"]), of(&[""]), of(&["3"])];
            assert_eq!(fields(text.as_bytes()), rows);
        }
    }
    let rows = [of(&["1"]), of(&["2"]), of(&["3"]), of(&[""]), of(&["4"])];
    assert_eq!(fields(b"1\r2\r\n3\n\r4"), rows);
    assert_eq!(fields(b"\r\r\n\r"), [of(&[""]), of(&[""]), of(&[""])]);
}

#[test]
fn malformed_rows() {
    assert_eq!(fields(b"\"a\"x,b\r\nc"), [Err(3), of(&["c"])]);
    assert_eq!(fields(b"x,\"y\nz"), [Err(2), of(&["z"])]);
    // The first place counts, and the row ends behind it even in what looks quoted.
    assert_eq!(fields(b"\"a\"b,\"c\"d"), [Err(3)]);
    assert_eq!(fields(b"\"a\"b\"\n\"c"), [Err(3), Err(6)]);
    // The row ends where the line of its opening quote does, whatever a field took before.
    assert_eq!(fields(b"\"a\nb\",\"c\rd"), [Err(6), of(&["d"])]);
    assert_eq!(fields(b"\""), [Err(0)]);
    assert_eq!(fields(b"\"\"\""), [Err(0)]);
    assert_eq!(fields(b"\"a\"\"\n1\r\n2"), [Err(0), of(&["1"]), of(&["2"])]);
}

#[test]
fn separators() {
    for separator in 0..=u8::MAX {
        let text = [b"1", &[separator][..], b"\"2", &[separator], b"\"\n3"].concat();
        let list = Worklist::new(&text, separator);
        if b"\"\r\n".contains(&separator) {
            assert_eq!(list.unwrap_err(), refusal_at(Reason::Settings, 0));
            continue;
        }
        let rows = compare_rows(&text, separator);
        // With the separator 1 the row begins with an empty field.
        let fields = 2 + usize::from(separator == b'1');
        assert_eq!((rows.len(), rows[0].fields()), (2, Ok(fields)));
        assert_eq!(rows[0].field(fields - 1).unwrap().bytes.len(), 4);
    }
    for separator in [256, 256 + u32::from(COMMA), 1 << 31, u32::MAX] {
        let refused = Err(refusal_at(Reason::Settings, 0));
        assert_eq!(raw::row(b"a", 9, separator), refused);
        assert_eq!(raw::field(b"\"", 0, separator, 0), refused);
    }
}

/// A row may be asked for at any byte, inside quotes and line ends too.
#[test]
fn every_text_of_six_bytes_from_every_byte() {
    const SIGNS: [u8; 5] = *b"a,\"\r\n";

    let mut texts = vec![Vec::new()];
    let mut from = 0;
    for _ in 0..6 {
        let until = texts.len();
        for text in from..until {
            texts.extend(SIGNS.map(|sign| [&texts[text][..], &[sign]].concat()));
        }
        from = until;
    }
    assert_eq!(texts.len(), (5usize.pow(7) - 1) / 4);
    for text in texts {
        compare_rows(&text, COMMA);
        for at in 0..text.len() {
            assert!(compare_row(&text, at, COMMA).is_some());
        }
        for at in [text.len(), text.len() + 1, usize::MAX] {
            assert_eq!(compare_row(&text, at, COMMA), None);
        }
        compare_unquoted(&text, text.len());
    }
}

/// The bytes that a field stands for, after seeing that both programs leave the same.
#[track_caller]
fn compare_unquoted(field: &[u8], room: usize) {
    let told = compare_outputs(
        room,
        |output| raw::unquoted(field, output),
        |output| second::worklist::unquoted_into(field, output).map_err(in_library_terms),
    );
    assert!(told.is_ok() || room < field.len());
}

/// Bytes that are mostly signs, with as many as a text of this length has.
fn random_text(random: &mut Random, length: usize, separator: u8) -> Vec<u8> {
    let signs = [
        b'"', b'"', b'"', b'\r', b'\n', separator, separator, b'1', b'2',
    ];
    let length = random.up_to(length);
    let mut text = Vec::with_capacity(length);
    for _ in 0..length {
        text.push(match random.up_to(9) {
            0 => random.word() as u8,
            _ => signs[random.up_to(signs.len() - 1)],
        });
    }
    text
}

/// What is quoted is read back: any bytes, with each quote doubled, in quotes.
#[test]
fn quoted_bytes_are_read_back() {
    let mut random = Random::of_test();
    for _ in 0..20_000 {
        let contents: Vec<Vec<u8>> = (0..=random.up_to(4))
            .map(|_| random_text(&mut random, 12, COMMA))
            .collect();
        let quoted = contents.iter().map(|content| {
            let mut field = vec![b'"'];
            for &byte in content {
                field.extend(vec![byte; if byte == b'"' { 2 } else { 1 }]);
            }
            field.push(b'"');
            field
        });
        let text = quoted.collect::<Vec<_>>().join(&COMMA);
        assert_eq!(fields(&text), [Ok(contents)]);
    }
}

#[test]
fn rows_do_not_depend_on_the_separator() {
    let text = b"1;2;3\r\n4;5\r\n";
    for (separator, counts) in [(b';', [3, 2]), (b',', [1, 1])] {
        let rows = compare_rows(text, separator).into_iter();
        let fields: Vec<_> = rows.map(|row| row.fields().unwrap()).collect();
        assert_eq!(fields, counts);
    }
}

#[test]
fn the_rows_end_once() {
    let mut rows = Worklist::new(b"1\n2", COMMA).unwrap().rows();
    assert_eq!(rows.by_ref().count(), 2);
    assert_eq!((rows.next(), rows.next()), (None, None));
}
