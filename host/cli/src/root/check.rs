//! `dwarnizza root check`: the full check of root files.

use std::ffi::OsStr;

use super::{checked, read};
use crate::answers::{CHECK_HELP, each_file};
use crate::command::{Arguments, Command};
use crate::output::{Field, Output};
use crate::status::Failure;

pub const COMMAND: Command = Command {
    name: "root check",
    operands: "FILE...",
    summary: "check each root file whole",
    options: &[],
    help: CHECK_HELP,
    run,
};

fn run(arguments: &Arguments, output: &mut Output) -> Result<(), Failure> {
    each_file(arguments, output, check)
}

/// The full check of the file of this name; it has no more to tell.
fn check(name: &OsStr) -> Result<Vec<Field>, Failure> {
    let file = read(name)?;
    checked(name, &file).map(|_| Vec::new())
}
