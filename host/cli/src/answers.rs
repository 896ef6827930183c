//! Answers that several commands give alike.

use std::ffi::{OsStr, OsString};

use crate::command::Arguments;
use crate::name::shown;
use crate::output::{Field, Output};
use crate::status::{Failure, Status};

/// What `--help` says of the commands that check files which come in envelopes.
pub const CHECK_HELP: &str = "\
It prints a line for each file:
  ok FILE
  refused FILE NUMBER PLACE
  failed FILE where it could not be read
A FILE is taken out of its envelope (blte open).";

/// Answers `ok` with these fields, or why not, for each file that is named.
pub fn each_file(
    arguments: &Arguments,
    output: &mut Output,
    judge: fn(&OsStr) -> Result<Vec<Field>, Failure>,
) -> Result<(), Failure> {
    for name in arguments.some_operands("a file")? {
        let mut fields = vec![("file", shown(name).into())];
        match judge(name) {
            Ok(more) => {
                fields.extend(more);
                output.answer("ok", &fields)?;
            }
            Err(failure) => output.failed_file(name, &failure)?,
        }
    }
    Ok(())
}

/// The first operand, which is a file, and those behind it.
pub fn first_and_rest(arguments: &Arguments) -> Result<(&OsStr, &[OsString]), Failure> {
    match &arguments.operands[..] {
        [] => Err(Failure::usage("a file is missing")),
        [name, rest @ ..] => Ok((name, rest)),
    }
}

/// The same, where something must be sought in the file.
pub fn file_and_sought<'a>(
    arguments: &'a Arguments,
    what: &str,
) -> Result<(&'a OsStr, &'a [OsString]), Failure> {
    match first_and_rest(arguments)? {
        (_, []) => Err(Failure::usage(format!("{what} is missing"))),
        some => Ok(some),
    }
}

/// Answers `found` with these fields, `absent`, or why not, for each text that is sought; `what` is
/// its field.
pub fn each_sought(
    texts: &[OsString],
    what: &'static str,
    output: &mut Output,
    find: impl Fn(&[u8]) -> Result<Option<Vec<Field>>, Failure>,
) -> Result<(), Failure> {
    for text in texts {
        let mut fields = vec![(what, shown(text).into())];
        match find(text.as_encoded_bytes()) {
            Ok(Some(found)) => {
                fields.extend(found);
                output.answer("found", &fields)?;
            }
            Ok(None) => {
                output.note(Status::Absent);
                output.answer("absent", &fields)?;
            }
            Err(failure) => output.failed(fields, &failure)?,
        }
    }
    Ok(())
}
