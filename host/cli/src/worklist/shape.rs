//! Which column of a list is meant, and whether row 1 is a header.

use dwarnizza::worklist::Row;

use super::header::is_header;
use super::{COLUMN, COLUMN_NAME, HEADER};
use crate::batch::Texts;
use crate::command::Arguments;
use crate::name::shown_bytes;
use crate::status::Failure;

/// How many fields of a row are named in words.
const NAMED: usize = 12;

/// What the arguments say of a list.
pub struct Asked {
    column: Column,
    header: bool,
}

enum Column {
    /// The only one.
    Only,
    /// By its position, from 0.
    Position(usize),
    Name(Vec<u8>),
}

impl Asked {
    pub fn by(arguments: &Arguments) -> Result<Self, Failure> {
        let name = arguments.value(COLUMN_NAME.name);
        let column = match (position(arguments)?, name) {
            (Some(_), Some(_)) => {
                return Err(Failure::usage("--column and --column-name are both given"));
            }
            (Some(position), None) => Column::Position(position),
            (None, Some(name)) => Column::Name(name.as_encoded_bytes().to_vec()),
            (None, None) => Column::Only,
        };
        Ok(Self {
            header: name.is_some() || arguments.has(HEADER.name),
            column,
        })
    }

    /// A column by its position, from 0.
    #[cfg(test)]
    pub fn at(position: usize, header: bool) -> Self {
        Self {
            column: Column::Position(position),
            header,
        }
    }
}

/// The position of the column, from 0.
fn position(arguments: &Arguments) -> Result<Option<usize>, Failure> {
    let position = arguments.number::<usize>(COLUMN.name).map_err(|failure| {
        Failure::usage(format!(
            "{}; --column-name takes a column's name",
            failure.words
        ))
    })?;
    match position {
        Some(0) => Err(Failure::usage("--column counts from 1, not from 0")),
        position => Ok(position.map(|position| position - 1)),
    }
}

/// What all rows of a list are held against.
pub struct Shape {
    /// The column, from 0.
    pub column: usize,
    /// The column's name in the header, or its position from 1, as outputs show it.
    pub name: String,
    /// How many fields each row has.
    pub fields: usize,
    /// The first row that is neither empty nor malformed, which says so.
    pub first: usize,
    /// The header row, as outputs show it.
    pub header: Option<String>,
}

impl Shape {
    pub fn of(rows: &[Row<'_>], asked: &Asked, texts: Texts) -> Result<Self, Failure> {
        let Some(row_1) = rows.first().copied() else {
            return Err(Failure::unfit("it is empty, and has no row"));
        };
        if asked.header && row_1.fields().is_err() {
            return Err(Failure::unfit("row 1, the header, is malformed"));
        }
        let readable = |row: &Row<'_>| row.fields().is_ok() && !row.bytes().is_empty();
        let first = rows.iter().position(readable);
        let column = column(row_1, first.map(|first| rows[first]), &asked.column)?;
        let field = row_1.field(column).map(|field| field.content());
        let header = asked.header || field.as_ref().is_some_and(|field| is_header(texts, field));
        let shown = header.then(|| shown_bytes(row_1.bytes()));
        match &shown {
            Some(header) if rows.len() == 1 => Err(Failure::unfit(format!(
                "row 1 is the header ({header}), and there is no other row"
            ))),
            _ => Ok(Self {
                column,
                name: match field {
                    Some(field) if header => shown_bytes(&field),
                    _ => (column + 1).to_string(),
                },
                fields: first.map_or(1, |first| rows[first].fields().unwrap_or_default()),
                first: first.unwrap_or_default() + 1,
                header: shown,
            }),
        }
    }
}

/// The column that is meant, from 0, by row 1 and the first row that can be read.
fn column(row_1: Row<'_>, first: Option<Row<'_>>, asked: &Column) -> Result<usize, Failure> {
    match (asked, first) {
        (Column::Name(name), _) => by_name(row_1, name),
        (Column::Position(position), Some(first)) => at_position(first, *position),
        (Column::Position(position), None) => Ok(*position),
        (Column::Only, Some(first)) => only(first),
        (Column::Only, None) => Ok(0),
    }
}

/// The only column, from 0.
fn only(first: Row<'_>) -> Result<usize, Failure> {
    match first.fields() {
        Ok(1) => Ok(0),
        _ => Err(Failure::usage(format!(
            "it has the columns {}: --column N or --column-name NAME says which is meant",
            fields_of(first)
        ))),
    }
}

fn at_position(first: Row<'_>, position: usize) -> Result<usize, Failure> {
    match first.fields() {
        Ok(fields) if position < fields => Ok(position),
        _ => Err(Failure::usage(format!(
            "it has no column {}; it has {}",
            position + 1,
            fields_of(first)
        ))),
    }
}

fn by_name(header: Row<'_>, name: &[u8]) -> Result<usize, Failure> {
    let is_named = |column: &usize| {
        let field = header.field(*column);
        field.is_some_and(|field| *field.content() == *name)
    };
    let mut columns = (0..header.fields().unwrap_or_default()).filter(is_named);
    let said = shown_bytes(name);
    match (columns.next(), columns.next()) {
        (Some(column), None) => Ok(column),
        (Some(_), Some(_)) => Err(Failure::usage(format!(
            "it has two columns {said}: --column N says which is meant"
        ))),
        (None, _) => Err(Failure::usage(format!(
            "it has no column {said}; it has {}",
            fields_of(header)
        ))),
    }
}

/// The fields of a row, as words name them: not all where they are many.
pub fn fields_of(row: Row<'_>) -> String {
    let fields = row.fields().unwrap_or_default();
    let mut names: Vec<_> = (0..fields.min(NAMED))
        .filter_map(|column| row.field(column))
        .map(|field| format!("\"{}\"", shown_bytes(&field.content())))
        .collect();
    if fields > NAMED {
        names.push(format!("and {} more", fields - NAMED));
    }
    names.join(", ")
}
