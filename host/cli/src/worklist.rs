//! Worklists: one column of a file of separated text.
//!
//! Rows and fields are read by the library. Every row of the file is the header, or is sought, or
//! says why it cannot be; none is dropped. A row's number is that of the file, from 1, whatever the
//! row is.

mod header;
mod mark;
mod separator;
mod shape;
#[cfg(test)]
mod tests;

use std::borrow::Cow;
use std::ffi::{OsStr, OsString};

use dwarnizza::Worklist;
use dwarnizza::worklist::Row;

use crate::batch::Texts;
use crate::command::{Arguments, Choice};
use crate::input::read;
use crate::name::{shown, shown_bytes};
use crate::output::Output;
use crate::status::{Failure, Status};
pub use separator::SEPARATOR;
use shape::{Asked, Shape, fields_of};

/// The option that names a worklist.
pub const WORKLIST: Choice = Choice {
    name: "--worklist",
    value: Some("FILE"),
    summary: "take also a column of this file of separated text, such as CSV",
};

/// The option that gives the position of its column.
pub const COLUMN: Choice = Choice {
    name: "--column",
    value: Some("N"),
    summary: "the column of the worklist by its position, from 1",
};

/// The option that gives the name of its column.
pub const COLUMN_NAME: Choice = Choice {
    name: "--column-name",
    value: Some("NAME"),
    summary: "the column of the worklist by its name in row 1, which is then the header",
};

/// The option that says that there is a header.
pub const HEADER: Choice = Choice {
    name: "--header",
    value: None,
    summary: "row 1 of the worklist is a header, whatever stands in it",
};

/// What `--help` says of worklists.
macro_rules! worklist_help {
    () => {
        "\
A worklist is separated text: fields may be quoted, and a row ends at LF, CR LF or CR. Every row comes
back once, in the list's order, with its number from 1; a row that is empty or malformed, or has
another number of fields than the first, is refused and leaves the others as they are. Without
--header or --column-name row 1 is a header only if it has a plain word in the column that is neither
near a number nor near a key. The last line on standard error says how many rows there are, which is
the header, and how many were found, absent, unknown, refused and duplicate, where a duplicate is one
of the others as well; with --json it is the answer `summary`. docs/TOOL.md has the rules whole."
    };
}
pub(crate) use worklist_help;

/// A worklist as it was read, and what the arguments say of it.
pub struct File {
    name: OsString,
    bytes: Vec<u8>,
    /// How many bytes a byte-order mark has before row 1.
    skipped: usize,
    separator: u8,
    asked: Asked,
}

impl File {
    /// The worklist that the arguments name, where they do.
    pub fn from_arguments(
        arguments: &Arguments,
        output: &mut Output,
    ) -> Result<Option<Self>, Failure> {
        let asked = Asked::by(arguments)?;
        let separator = separator::given(arguments)?;
        let Some(name) = arguments.value(WORKLIST.name) else {
            let beside = [COLUMN, COLUMN_NAME, HEADER, SEPARATOR];
            return match beside.iter().find(|option| arguments.has(option.name)) {
                Some(option) => Err(Failure::usage(format!(
                    "{} wants --worklist beside it",
                    option.name
                ))),
                None => Ok(None),
            };
        };
        output.phase(&format!("reading {}", shown(name)));
        let bytes = read(name)?;
        let skipped = skipped(name, &bytes, output)?;
        Ok(Some(Self {
            name: name.to_owned(),
            separator: separator.unwrap_or_else(|| separator::by_first_row(&bytes[skipped..])),
            bytes,
            skipped,
            asked,
        }))
    }

    /// Its rows, of which the first may be a header by what such texts are.
    pub fn list(&self, texts: Texts) -> Result<List<'_>, Failure> {
        let text = &self.bytes[self.skipped..];
        let worklist = Worklist::new(text, self.separator).expect("it may separate");
        let rows: Vec<_> = worklist.rows().collect();
        let hint = separator::hint(text, self.separator);
        let file = shown(&self.name);
        let failed = |failure: Failure| {
            let hint = hint
                .as_ref()
                .map_or(String::new(), |hint| format!("; {hint}"));
            Failure {
                words: format!("{file}: {}{hint}", failure.words),
                ..failure
            }
        };
        let shape = Shape::of(&rows, &self.asked, texts);
        let shape = shape.map_err(|failure| match failure.status {
            Status::Refused => failed(failure).of_file(&self.name),
            _ => failed(failure),
        })?;
        Ok(List {
            file,
            text,
            skipped: self.skipped,
            separator: self.separator,
            hint,
            rows,
            shape,
        })
    }
}

/// Tells a byte-order mark, and gives how many bytes it has.
fn skipped(name: &OsStr, bytes: &[u8], output: &mut Output) -> Result<usize, Failure> {
    let file = shown(name);
    let skipped = mark::skipped(bytes).map_err(|encoding| {
        let words = format!("{file}: by its first bytes it is {encoding}: save it as UTF-8");
        Failure::unfit(words).of_file(name)
    })?;
    if skipped > 0 {
        output.say(&format!(
            "{file}: it begins with the byte-order mark of UTF-8, which is no part of row 1"
        ));
    }
    Ok(skipped)
}

/// The rows of a worklist.
pub struct List<'a> {
    /// The file, as outputs show it.
    file: String,
    text: &'a [u8],
    skipped: usize,
    separator: u8,
    /// Words where another separator fits.
    hint: Option<String>,
    rows: Vec<Row<'a>>,
    shape: Shape,
}

/// What a row has in the column.
pub enum Cell<'a> {
    Text(Cow<'a, [u8]>),
    /// Why it has nothing there, and the row.
    Fault(String, &'a [u8]),
}

impl<'a> List<'a> {
    /// How many rows the file has, with the header.
    pub fn rows(&self) -> usize {
        self.rows.len()
    }

    /// The header row, as outputs show it.
    pub fn header(&self) -> Option<&str> {
        self.shape.header.as_deref()
    }

    /// Words where another separator fits, for what was sought in vain.
    pub fn hint(&self) -> Option<String> {
        let hint = self.hint.as_ref()?;
        Some(format!("{}: {hint}", self.file))
    }

    /// All rows but the header: the number of each, and what it has in the column.
    pub fn cells(&self) -> impl Iterator<Item = (usize, Cell<'a>)> {
        let numbered = (1..).zip(&self.rows);
        let rows = numbered.skip(self.shape.header.is_some().into());
        rows.map(|(number, row)| (number, self.cell(*row)))
    }

    fn cell(&self, row: Row<'a>) -> Cell<'a> {
        let fault = |words| Cell::Fault(words, row.bytes());
        match row.fields() {
            Err(malformed) => fault(self.malformed(malformed.place)),
            Ok(_) if row.bytes().is_empty() => fault("the row is empty".to_string()),
            Ok(fields) if fields != self.shape.fields => fault(self.other_fields(row, fields)),
            Ok(_) => {
                let field = row.field(self.shape.column);
                Cell::Text(field.expect("it has as many fields").content())
            }
        }
    }

    /// Why a row is malformed: at its place stands what follows a closing quote, which is no quote,
    /// or the opening quote of a field that is never closed.
    fn malformed(&self, place: usize) -> String {
        let at = self.skipped + place;
        match self.text[place] {
            b'"' => format!(
                "the row is malformed: the quoted field that begins at byte {at} is never closed"
            ),
            byte => format!(
                "the row is malformed: \"{}\" follows a closing quote, at byte {at}",
                shown_bytes(&[byte])
            ),
        }
    }

    fn other_fields(&self, row: Row<'_>, fields: usize) -> String {
        let plural = if fields == 1 { "" } else { "s" };
        format!(
            "the row has {fields} field{plural} by the separator {} ({}), and row {} has {}",
            separator::named(self.separator),
            fields_of(row),
            self.shape.first,
            self.shape.fields
        )
    }

    /// What is wrong in a row, in words: where it stands, and what else there is to say of it. The
    /// text is what stands in the column, where something does.
    pub fn words(&self, row: usize, why: &str, text: Option<&[u8]>) -> String {
        let Shape { header, name, .. } = &self.shape;
        let column = text.map_or(String::new(), |_| format!("column {name}, "));
        let mut words = format!("{}: {column}row {row}: {why}", self.file);
        if row == 1 && header.is_none() && text.is_some_and(begins_as_a_word) {
            words += "; if row 1 is a header, --header says so";
        }
        if let Some(hint) = &self.hint {
            words += &format!("; {hint}");
        }
        words
    }
}

/// Whether a text begins with a letter, or with a byte of one that is not of ASCII.
fn begins_as_a_word(text: &[u8]) -> bool {
    let first = text.first();
    first.is_some_and(|byte| byte.is_ascii_alphabetic() || !byte.is_ascii())
}
