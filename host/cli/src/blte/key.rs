//! `dwarnizza blte key`: the keys of envelopes.

use std::ffi::OsStr;

use dwarnizza::Envelope;

use super::{read, refused};
use crate::answers::each_file;
use crate::command::{Arguments, Command};
use crate::name::hex;
use crate::output::{Field, Output};
use crate::status::Failure;

pub const COMMAND: Command = Command {
    name: "blte key",
    operands: "FILE...",
    summary: "tell the key of each envelope: the MD5 of its header, or of all of it without a chunk table",
    options: &[],
    help: "It prints a line for each file:\n  \
           ok FILE KEY\n  \
           refused FILE NUMBER PLACE\n  \
           failed FILE where it could not be read\n\
           The chunks are not checked; blte open does that.",
    run,
};

fn run(arguments: &Arguments, output: &mut Output) -> Result<(), Failure> {
    each_file(arguments, output, key)
}

fn key(name: &OsStr) -> Result<Vec<Field>, Failure> {
    let file = read(name)?;
    match Envelope::key_of(&file) {
        Ok(key) => Ok(vec![("key", hex(&key).into())]),
        Err(refusal) => Err(refused(name, refusal, &file)),
    }
}
