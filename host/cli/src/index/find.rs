//! `dwarnizza index find`: keys in archive indexes.

use std::ffi::OsString;

use dwarnizza::Key;

use super::search::{Before, INDEX, Searched, index_names, search};
use crate::batch::{Answer, Batch, Names, Teller, Texts};
use crate::command::{Arguments, Choice, Command};
use crate::files;
use crate::key_text::{key, key_of_any_length};
use crate::output::Output;
use crate::status::Failure;
use crate::worklist::{self, COLUMN, COLUMN_NAME, HEADER, SEPARATOR, WORKLIST, worklist_help};

const UNCHECKED: Choice = Choice {
    name: "--unchecked",
    value: None,
    summary: "judge only footer and length of each index before the search",
};

pub const COMMAND: Command = Command {
    name: "index find",
    operands: "--index PATH... [KEY]...",
    summary: "find keys, in hex, in archive indexes that are checked whole",
    options: &[
        INDEX,
        files::FILES_FROM,
        WORKLIST,
        COLUMN,
        COLUMN_NAME,
        HEADER,
        SEPARATOR,
        UNCHECKED,
    ],
    help: concat!(
        "\
Lines, in the order of the keys; ROW is the worklist's row, - for a KEY that was an operand:
  found KEY SIZE ARCHIVE OFFSET INDEX ROW
      INDEX is the first that has the key; ARCHIVE is - but with offset width 6
  absent KEY ROW
  unknown KEY ROW
      no index has it, but one was refused or could not be read, and may have it
  refused TEXT ROW
      no key, which is never padded or cut; or a row that has none
An index that is refused or cannot be read has a line `refused FILE NUMBER PLACE` or `failed FILE`
before the lines that were not known until then.

",
        worklist_help!()
    ),
    run,
};

const NAMES: Names = Names {
    what: "a key",
    field: "key",
    refused: "text",
    texts: Texts::Plain,
};

fn run(arguments: &Arguments, output: &mut Output) -> Result<(), Failure> {
    let file = worklist::File::from_arguments(arguments, output)?;
    let batch = Batch::new(NAMES, &arguments.operands, file.as_ref())?;
    let names = index_names(arguments)?;
    let before = match arguments.has(UNCHECKED.name) {
        true => Before::FooterAndLength,
        false => Before::FullCheck,
    };
    let texts = batch.sought.iter().map(|sought| sought.text());
    let keys: Vec<_> = texts.map(|text| key_of_any_length(text?)).collect();
    let mut teller = Teller::new(&batch);
    let searched = search(&names, &keys, before, output, |searched, output| {
        teller.tell(output, |number, text| {
            known(searched, number, text, keys[number])
        })
    })?;
    teller.tell(output, |number, text| {
        let answer = known(&searched, number, text, keys[number]);
        answer.or_else(|| Some(not_found(&searched, text)))
    })?;
    teller.end(output)
}

/// What is known of a key before all indexes are searched. A text that is no key of any length is
/// refused by the key length of the first index.
fn known(
    searched: &Searched<'_>,
    number: usize,
    text: &[u8],
    sought: Option<Key>,
) -> Option<Answer> {
    match sought {
        Some(_) => searched.fields(number).map(Answer::Found),
        None => {
            let (length, _) = searched.key_lengths.first()?;
            let why = key(text, *length).err()?;
            Some(Answer::Refused(Failure::unfit(why)))
        }
    }
}

/// What is answered where no index has a key.
fn not_found(searched: &Searched<'_>, text: &[u8]) -> Answer {
    match refusal(text, &searched.key_lengths) {
        Some(why) => Answer::Refused(Failure::unfit(why)),
        None if searched.incomplete => Answer::Unknown(Vec::new()),
        None => Answer::Absent(Vec::new(), None),
    }
}

/// Why a text is a key of no index, by the first index's key length. Where no index could be
/// searched, keys of all lengths may be keys.
fn refusal(text: &[u8], lengths: &[(u8, OsString)]) -> Option<String> {
    if lengths.is_empty() {
        let key = key_of_any_length(text).ok_or_else(|| key(text, 16));
        return key.err()?.err();
    }
    let mut refusals = lengths.iter().map(|(length, _)| key(text, *length).err());
    let first = refusals.next().flatten()?;
    refusals.all(|refusal| refusal.is_some()).then_some(first)
}
