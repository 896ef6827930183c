//! Separated text: its rows, their fields, and what a field stands for.

use crate::refusal::{self, Refusal};

const QUOTE: u8 = b'"';
const CR: u8 = b'\r';
const LF: u8 = b'\n';

/// A row of a text.
#[derive(Clone, Debug, PartialEq, Eq)]
pub struct Row {
    /// Where it ends, before its line end.
    pub end: usize,
    /// Where the next begins.
    pub next: usize,
    /// Its fields, in order; where it is malformed, the place of the byte.
    pub fields: Result<Vec<Field>, usize>,
}

/// A field of a row, with its quotes.
#[derive(Clone, Copy, Debug, PartialEq, Eq)]
pub struct Field {
    /// Where it stands in the text.
    pub place: usize,
    /// How many bytes it has.
    pub length: usize,
    /// Whether it is quoted.
    pub quoted: bool,
}

impl Field {
    /// The byte behind it.
    fn end(&self) -> usize {
        self.place + self.length
    }
}

/// The row that begins at this byte; none at the text's end and behind it. Refuses with 11.
pub fn row(text: &[u8], at: usize, separator: u32) -> Result<Option<Row>, Refusal> {
    let separator = byte(separator)?;
    Ok((at < text.len()).then(|| {
        let fields = fields(text, at, separator);
        let end = match &fields {
            Ok(fields) => fields.last().expect("a row has a field").end(),
            Err(place) => find(text, *place, |byte| matches!(byte, CR | LF)),
        };
        let next = match text[end..] {
            [CR, LF, ..] => end + 2,
            [] => end,
            _ => end + 1,
        };
        Row { end, next, fields }
    }))
}

/// A field of the row that begins at this byte, by its column from 0; none where no row begins
/// there, where it is malformed, or where it has no such field. Refuses with 11.
pub fn field(
    text: &[u8],
    at: usize,
    separator: u32,
    column: usize,
) -> Result<Option<Field>, Refusal> {
    let row = row(text, at, separator)?;
    let fields = row.and_then(|row| row.fields.ok());
    Ok(fields.and_then(|fields| fields.get(column).copied()))
}

/// The bytes that a field stands for: of a whole quoted field its content, else the bytes
/// themselves.
pub fn unquoted(field: &[u8]) -> Vec<u8> {
    if field.first() != Some(&QUOTE) || closing(field, 0) != Some(field.len() - 1) {
        return field.to_vec();
    }
    let mut content = Vec::new();
    let mut rest = &field[1..field.len() - 1];
    while let [first, behind @ ..] = rest {
        content.push(*first);
        rest = match first {
            &QUOTE => &behind[1..],
            _ => behind,
        };
    }
    content
}

/// Writes them into the output, and gives their number; refuses with 13.
pub fn unquoted_into(field: &[u8], output: &mut [u8]) -> Result<usize, Refusal> {
    let content = unquoted(field);
    output
        .get_mut(..content.len())
        .ok_or(refusal::OUTPUT_TOO_SHORT)?
        .copy_from_slice(&content);
    Ok(content.len())
}

/// The separator, which is a byte and no quote, CR or LF.
fn byte(separator: u32) -> Result<u8, Refusal> {
    match u8::try_from(separator) {
        Ok(QUOTE | CR | LF) | Err(_) => Err(refusal::SETTINGS),
        Ok(separator) => Ok(separator),
    }
}

/// The fields of a row, or the place where it is malformed.
fn fields(text: &[u8], at: usize, separator: u8) -> Result<Vec<Field>, usize> {
    let mut fields = vec![field_at(text, at, separator)?];
    while let Some(last) = fields.last()
        && text.get(last.end()) == Some(&separator)
    {
        let next = last.end() + 1;
        fields.push(field_at(text, next, separator)?);
    }
    Ok(fields)
}

/// The field that begins here, or the place where its row is malformed.
fn field_at(text: &[u8], place: usize, separator: u8) -> Result<Field, usize> {
    let ends = |byte| byte == separator || matches!(byte, CR | LF);
    let quoted = text.get(place) == Some(&QUOTE);
    let end = if quoted {
        closing(text, place).ok_or(place)? + 1
    } else {
        find(text, place, ends)
    };
    match text.get(end) {
        Some(&behind) if !ends(behind) => Err(end),
        _ => Ok(Field {
            place,
            length: end - place,
            quoted,
        }),
    }
}

/// The closing quote of the quoted field that opens here: the first quote behind the opening one
/// that is not doubled.
fn closing(text: &[u8], opening: usize) -> Option<usize> {
    let mut at = opening + 1;
    loop {
        at = find(text, at, |byte| byte == QUOTE);
        match text[at..] {
            [] => return None,
            [_, QUOTE, ..] => at += 2,
            _ => return Some(at),
        }
    }
}

/// The first such byte from here on, or the text's end.
fn find(text: &[u8], from: usize, such: impl Fn(u8) -> bool) -> usize {
    let rest = text[from..].iter();
    let steps = rest.take_while(|&&byte| !such(byte)).count();
    from + steps
}
