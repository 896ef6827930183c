//! The separator of a list's fields.

use std::ffi::OsStr;

use dwarnizza::Worklist;

use crate::command::{Arguments, Choice};
use crate::name::{shown, shown_bytes};
use crate::status::Failure;

/// The option that gives the separator.
pub const SEPARATOR: Choice = Choice {
    name: "--separator",
    value: Some("CHARACTER"),
    summary: "what stands between the fields of a row: , ; | or any character of one byte, or tab;\n      \
              without it a comma, or a tab where row 1 has a tab and no comma",
};

/// What the words of a hint look for.
const USUAL: [u8; 4] = [b',', b';', b'\t', b'|'];

/// The separator that the arguments give.
pub fn given(arguments: &Arguments) -> Result<Option<u8>, Failure> {
    let given = arguments.value(SEPARATOR.name);
    given.map(separator).transpose()
}

fn separator(given: &OsStr) -> Result<u8, Failure> {
    let separator = match given.as_encoded_bytes() {
        b"tab" => b'\t',
        [separator] => *separator,
        _ => {
            return Err(Failure::usage(format!(
                "--separator wants one character of one byte, or tab, not {}",
                shown(given)
            )));
        }
    };
    match Worklist::new(b"", separator) {
        Ok(_) => Ok(separator),
        Err(refusal) => Err(Failure::usage(format!(
            "--separator: {} cannot stand between fields, nor can a quote, CR or LF: {refusal}",
            shown(given)
        ))),
    }
}

/// The separator where none is given: a comma, or a tab where the first row has a tab and no comma.
pub fn by_first_row(text: &[u8]) -> u8 {
    let by_comma = Worklist::new(text, b',').expect("a comma may separate");
    let first = by_comma.rows().next().map_or(&b""[..], |row| row.bytes());
    match first.contains(&b'\t') && !first.contains(&b',') {
        true => b'\t',
        false => b',',
    }
}

/// Words where all rows look separated by another separator than this one: each has one field by
/// this one, or is malformed, and all have the same number of fields, two at least, by the other.
/// Empty rows do not count.
pub fn hint(text: &[u8], separator: u8) -> Option<String> {
    let of = |separator| Worklist::new(text, separator).expect("it may separate");
    let mut rows = of(separator).rows();
    let mut others = USUAL.into_iter().filter(|&other| other != separator);
    let other = others.find(|&other| fields(of(other)).is_some_and(|fields| fields > 1))?;
    let one_field = rows.all(|row| row.fields().map_or(true, |fields| fields == 1));
    one_field.then(|| {
        format!(
            "all rows look separated by {}: --separator {} reads them so",
            named(other),
            in_shell(other)
        )
    })
}

/// How many fields each row has that is not empty, where all have the same number.
fn fields(list: Worklist<'_>) -> Option<usize> {
    let mut rows = list.rows().filter(|row| !row.bytes().is_empty());
    let first = rows.next()?.fields().ok()?;
    let same = |fields: usize| fields == first;
    rows.all(|row| row.fields().is_ok_and(same))
        .then_some(first)
}

/// A separator in words.
pub fn named(separator: u8) -> String {
    match separator {
        b'\t' => "a tab".to_string(),
        _ => format!("\"{}\"", shown_bytes(&[separator])),
    }
}

fn in_shell(separator: u8) -> String {
    match separator {
        b'\t' => "tab".to_string(),
        _ => format!("'{}'", shown_bytes(&[separator])),
    }
}
