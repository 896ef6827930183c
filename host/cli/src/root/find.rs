//! `dwarnizza root find`: file numbers or paths in a root file.

use super::search::{By, Looked, PATH, Search, path_help};
use super::{checked, read};
use crate::answers::first_and_rest;
use crate::batch::{Answer, Batch, Teller};
use crate::command::{Arguments, Command};
use crate::masks::{LOCALE, Masks, WITHOUT};
use crate::output::Output;
use crate::status::Failure;
use crate::worklist::{self, COLUMN, COLUMN_NAME, HEADER, SEPARATOR, WORKLIST, worklist_help};

pub const COMMAND: Command = Command {
    name: "root find",
    operands: "FILE [NUMBER | PATH]...",
    summary: "find the content keys of file numbers or paths in a root file, which is checked whole first",
    options: &[
        PATH,
        LOCALE,
        WITHOUT,
        WORKLIST,
        COLUMN,
        COLUMN_NAME,
        HEADER,
        SEPARATOR,
    ],
    help: concat!(
        "\
It prints a line for each file number; ROW is the worklist's row, - for a NUMBER that was an operand:
  found NUMBER CONTENT-KEY PLACE ROW
      PLACE is where the key stands in the file, - for a row of a worklist
  absent NUMBER ROW
  refused TEXT ROW
      no file number; or a row that has none
or, with --path, for each path:
  found PATH NUMBER CONTENT-KEY PLACE ROW
      NUMBER is the file number of the first record that has the path's name hash
  absent PATH ROW
  refused PATH ROW NUMBER PLACE, or refused TEXT ROW
      longer than 1,024 bytes (110); or empty, or a row that has none
or one for the file:
  refused FILE NUMBER PLACE
  failed FILE
      it could not be read

",
        path_help!(),
        "\n\n",
        worklist_help!()
    ),
    run,
};

fn run(arguments: &Arguments, output: &mut Output) -> Result<(), Failure> {
    let (by, masks) = (By::of(arguments), Masks::of(arguments)?);
    let (name, operands) = first_and_rest(arguments)?;
    let list = worklist::File::from_arguments(arguments, output)?;
    let batch = Batch::new(by.names(), operands, list.as_ref())?;
    output.phase("reading the root file");
    let file = read(name)?;
    let root = checked(name, &file)?;
    let search = Search { root, by, masks };
    let mut teller = Teller::new(&batch);
    search.all(&batch, output, |searched, output| {
        teller.tell(output, |number, text| {
            let row = batch.sought[number].row;
            Some(answer(search, searched.get(number)?, text, row))
        })
    })?;
    teller.end(output)
}

/// What is answered. Of a file number that was an operand the place is told, which takes a search of
/// its own.
fn answer(search: Search<'_>, looked: &Looked, text: &[u8], row: Option<usize>) -> Answer {
    let record = match looked {
        Ok(Some(record)) => record,
        Ok(None) => return Answer::Absent(Vec::new(), search.by.look(text)),
        Err(failure) => return Answer::Refused((**failure).clone()),
    };
    let place = match (record.place, row) {
        (None, None) => search.place(record.id),
        (place, _) => place,
    };
    let mut fields = record.fields(search.by);
    fields.push(("place", place.into()));
    Answer::Found(fields)
}
