//! Worklists as Python's csv module writes them, in all its dialects.

use second::worklist::{row, unquoted};

use crate::tools::lines_by_python;

fn bytes(hex: &str) -> Vec<u8> {
    let digits = hex.as_bytes().as_chunks::<2>().0;
    let texts = digits.iter().map(|pair| str::from_utf8(pair).unwrap());
    texts
        .map(|pair| u8::from_str_radix(pair, 16).unwrap())
        .collect()
}

/// The contents of all fields of a text, row by row.
fn read(text: &[u8], separator: u32) -> Vec<Vec<Vec<u8>>> {
    let mut rows = Vec::new();
    let mut at = 0;
    while let Some(row) = row(text, at, separator).unwrap() {
        let fields = row.fields.expect("csv.writer writes no malformed row");
        let contents = fields
            .iter()
            .map(|field| unquoted(&text[field.place..][..field.length]));
        rows.push(contents.collect());
        at = row.next;
    }
    assert_eq!(at, text.len());
    rows
}

#[test]
fn worklists() {
    let Some(lines) = lines_by_python("csv", b"417") else {
        return;
    };
    let texts: Vec<&[String]> = lines.chunk_by(|_, next| next.starts_with("row ")).collect();
    assert_eq!(texts.len(), 4 * 3 * 3 * 50);
    for lines in texts {
        let (text, rows) = lines.split_first().unwrap();
        let words: Vec<&str> = text.split(' ').collect();
        let written: Vec<Vec<Vec<u8>>> = rows
            .iter()
            .map(|row| row["row ".len()..].split(',').map(bytes).collect())
            .collect();
        let separator = words[1].parse().unwrap();
        assert_eq!(read(&bytes(words[2]), separator), written, "{text}");
    }
}
