//! `dwarnizza blte open`: the content of an envelope.

use std::ffi::OsStr;

use dwarnizza::{Envelope, Key};

use super::{read, refused};
use crate::command::{Arguments, Choice, Command};
use crate::key_text;
use crate::name::shown;
use crate::output::Output;
use crate::replace::{FORCE, OUT, write_file};
use crate::status::Failure;

const KEY: Choice = Choice {
    name: "--key",
    value: Some("KEY"),
    summary: "the key that the envelope must have, as 32 hex digits; without it any",
};

pub const COMMAND: Command = Command {
    name: "blte open",
    operands: "FILE",
    summary: "check an envelope whole, and write its content",
    options: &[KEY, OUT, FORCE],
    help: "\
Without -o the content goes to standard output. With -o it prints a line:
  ok FILE KEY OUT LENGTH
  refused FILE NUMBER PLACE
  failed FILE
      it could not be read, or the output file not be written
Nothing is written of an envelope that is refused.",
    run,
};

fn run(arguments: &Arguments, output: &mut Output) -> Result<(), Failure> {
    let name = arguments.one_operand("a file")?;
    let out = arguments.value(OUT.name);
    output.content = out.is_none();
    let wanted = arguments.value(KEY.name).map(key).transpose();
    let wanted = wanted.map_err(|failure| failure.of_file(name))?;
    let file = read(name)?;
    let failed = |refusal| refused(name, refusal, &file);
    let key = match wanted {
        Some(key) => key,
        None => Envelope::key_of(&file).map_err(failed)?.into(),
    };
    let content = Envelope::check(&file, key).map_err(failed)?.content();
    let Some(out) = out else {
        return output.bytes(&content);
    };
    write_file(out, &content, arguments.has(FORCE.name))?;
    output.answer(
        "ok",
        &[
            ("file", shown(name).into()),
            ("key", key.to_string().into()),
            ("out", shown(out).into()),
            ("length", content.len().into()),
        ],
    )
}

/// The key of an envelope, which has 16 bytes.
fn key(text: &OsStr) -> Result<Key, Failure> {
    key_text::key(text.as_encoded_bytes(), 16).map_err(Failure::unfit)
}
