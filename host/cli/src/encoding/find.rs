//! `dwarnizza encoding find`: keys in an encoding file.

use dwarnizza::{Key, Refusal};

use super::{Open, UNCHECKED, read, refused};
use crate::answers::first_and_rest;
use crate::batch::{Answer, Batch, Names, Teller, Texts};
use crate::command::{Arguments, Choice, Command};
use crate::key_text::{self, key_of_any_length};
use crate::name::{hex, shown_bytes};
use crate::output::{Field, Output};
use crate::status::Failure;
use crate::worklist::{self, COLUMN, COLUMN_NAME, HEADER, SEPARATOR, WORKLIST, worklist_help};

const ENCODING_KEYS: Choice = Choice {
    name: "--encoding-keys",
    value: None,
    summary: "the keys are encoding keys, and not content keys",
};

pub const COMMAND: Command = Command {
    name: "encoding find",
    operands: "FILE [KEY]...",
    summary: "find keys, in hex, in an encoding file that is checked whole first",
    options: &[
        ENCODING_KEYS,
        UNCHECKED,
        WORKLIST,
        COLUMN,
        COLUMN_NAME,
        HEADER,
        SEPARATOR,
    ],
    help: concat!(
        "\
It prints a line for each key; ROW is the worklist's row, - for a KEY that was an operand:
  found KEY SIZE ENCODING-KEY[,ENCODING-KEY]... ROW
      of a content key, with the decoded size
  found KEY SIZE SPEC-NUMBER SPEC ROW
      of an encoding key, with the encoded size
  absent KEY ROW
  refused KEY ROW NUMBER PLACE, or refused TEXT ROW
      no key; or a row that has none
or one for the file:
  refused FILE NUMBER PLACE
  failed FILE
      it could not be read

",
        worklist_help!()
    ),
    run,
};

const NAMES: Names = Names {
    what: "a key",
    field: "key",
    refused: "key",
    texts: Texts::Plain,
};

fn run(arguments: &Arguments, output: &mut Output) -> Result<(), Failure> {
    let (name, operands) = first_and_rest(arguments)?;
    let list = worklist::File::from_arguments(arguments, output)?;
    let batch = Batch::new(NAMES, operands, list.as_ref())?;
    output.phase("reading the encoding file");
    let file = read(name)?;
    let failed = |refusal| refused(name, refusal, &file);
    let encoding = Open::new(arguments, &file).map_err(failed)?;
    let find = if arguments.has(ENCODING_KEYS.name) {
        find_encoding
    } else {
        find_content
    };
    let mut teller = Teller::new(&batch);
    teller.tell(output, |_, text| {
        let found = key(text).and_then(|key| find(encoding, key).map_err(failed));
        Some(match found {
            Ok(Some(fields)) => Answer::Found(fields),
            Ok(None) => Answer::Absent(Vec::new(), None),
            Err(failure) => Answer::Refused(failure),
        })
    })?;
    teller.end(output)
}

type Found = Result<Option<Vec<Field>>, Refusal>;

fn find_content(encoding: Open<'_>, key: Key) -> Found {
    let found = encoding.find_content(key)?;
    Ok(found.map(|entry| {
        let keys: Vec<_> = entry.keys().map(hex).collect();
        vec![
            ("size", entry.size.into()),
            ("encoding_keys", keys.join(",").into()),
        ]
    }))
}

fn find_encoding(encoding: Open<'_>, key: Key) -> Found {
    let found = encoding.find_encoding(key)?;
    Ok(found.map(|entry| {
        vec![
            ("size", entry.size.into()),
            ("spec_number", entry.spec_number.into()),
            ("spec", shown_bytes(entry.spec).into()),
        ]
    }))
}

/// The key of this text. How many bytes the keys of a file have is told by its own search alone: a
/// text that is no key of any length is refused as one of the usual length.
fn key(text: &[u8]) -> Result<Key, Failure> {
    match key_of_any_length(text) {
        Some(key) => Ok(key),
        None => key_text::key(text, 16).map_err(Failure::unfit),
    }
}
