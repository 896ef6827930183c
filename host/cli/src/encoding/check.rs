//! `dwarnizza encoding check`: the full check of encoding files.

use std::ffi::OsStr;

use dwarnizza::Encoding;

use super::{read, refused};
use crate::answers::{CHECK_HELP, each_file};
use crate::command::{Arguments, Command};
use crate::output::{Field, Output};
use crate::status::Failure;

pub const COMMAND: Command = Command {
    name: "encoding check",
    operands: "FILE...",
    summary: "check each encoding file whole",
    options: &[],
    help: CHECK_HELP,
    run,
};

fn run(arguments: &Arguments, output: &mut Output) -> Result<(), Failure> {
    each_file(arguments, output, check)
}

/// The full check of the file of this name; it has no more to tell.
fn check(name: &OsStr) -> Result<Vec<Field>, Failure> {
    let file = read(name)?;
    match Encoding::check(&file) {
        Ok(_) => Ok(Vec::new()),
        Err(refusal) => Err(refused(name, refusal, &file)),
    }
}
