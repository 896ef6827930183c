//! `dwarnizza encoding spec`: specs of an encoding file by their numbers.

use super::{Open, UNCHECKED, read, refused};
use crate::answers::{each_sought, file_and_sought};
use crate::command::{Arguments, Command, decimal};
use crate::name::shown_bytes;
use crate::output::Output;
use crate::status::Failure;

pub const COMMAND: Command = Command {
    name: "encoding spec",
    operands: "FILE NUMBER...",
    summary: "tell the specs of these numbers, from 0, of an encoding file that is checked whole first",
    options: &[UNCHECKED],
    help: "It prints a line for each number:\n  \
           found NUMBER SPEC\n  \
           refused NUMBER REFUSAL PLACE, or refused TEXT where it is no number\n\
           or one for the file:\n  \
           refused FILE NUMBER PLACE\n  \
           failed FILE where it could not be read",
    run,
};

fn run(arguments: &Arguments, output: &mut Output) -> Result<(), Failure> {
    let (name, texts) = file_and_sought(arguments, "a spec number")?;
    let file = read(name)?;
    let failed = |refusal| refused(name, refusal, &file);
    let encoding = Open::new(arguments, &file).map_err(failed)?;
    each_sought(texts, "spec_number", output, |text| {
        let spec = encoding.spec(number(text)?);
        let spec = spec.map_err(failed)?;
        Ok(Some(vec![("spec", shown_bytes(spec).into())]))
    })
}

fn number(text: &[u8]) -> Result<u32, Failure> {
    let number = decimal(text).and_then(|number| u32::try_from(number).ok());
    number.ok_or_else(|| {
        Failure::unfit(format!(
            "\"{}\" is no spec number, which is decimal digits without a leading zero",
            shown_bytes(text)
        ))
    })
}
