//! `dwarnizza md5`: digests of files, as md5sum prints them, and the check of such lists.

use std::ffi::{OsStr, OsString};
use std::io::{self, Read};
use std::os::unix::ffi::OsStringExt;

use dwarnizza::Md5;

use crate::command::{Arguments, Choice, Command};
use crate::input::{open, read};
use crate::key_text;
use crate::name::{hex, shown};
use crate::output::Output;
use crate::status::{Failure, Status};

const CHECK: Choice = Choice {
    name: "-c",
    value: None,
    summary: "each FILE is a list of digests and names, as md5 and md5sum print it: check the files",
};

pub const COMMAND: Command = Command {
    name: "md5",
    operands: "[-c] [FILE]...",
    summary: "print the MD5 of each file; - or no FILE is standard input",
    options: &[CHECK],
    help: "It prints a line for each file, as md5sum does: the digest, two blanks and the name, after a\n\
           backslash where the name is escaped. With --json it is an answer:\n  \
           ok FILE DIGEST\n  \
           failed FILE where it could not be read\n\
           With -c it prints a line for each file of the lists:\n  \
           ok FILE\n  \
           differs FILE DIGEST WANTED-DIGEST, with exit status 2\n  \
           failed FILE where it could not be read\n\
           and for each line of a list that is none, refused LIST - -",
    run,
};

/// How much is read at once.
const PART: usize = 64 * 1024;

fn run(arguments: &Arguments, output: &mut Output) -> Result<(), Failure> {
    let input = [OsString::from("-")];
    let names = if arguments.operands.is_empty() {
        &input
    } else {
        &arguments.operands[..]
    };
    let each = if arguments.has(CHECK.name) {
        check_list
    } else {
        digest_line
    };
    names.iter().try_for_each(|name| each(name, output))
}

/// Says the digest of a file.
fn digest_line(name: &OsStr, output: &mut Output) -> Result<(), Failure> {
    let digest = match digest_of(name) {
        Ok(digest) => hex(&digest),
        Err(failure) if output.json => return output.failed_file(name, &failure),
        Err(failure) => {
            output.fail(&failure);
            return Ok(());
        }
    };
    let said = shown(name);
    if output.json {
        return output.answer("ok", &[("file", said.into()), ("digest", digest.into())]);
    }
    let escaped = if name == OsStr::new(&said) { "" } else { "\\" };
    output.bytes(format!("{escaped}{digest}  {said}\n").as_bytes())
}

/// Checks the files of a list.
fn check_list(list: &OsStr, output: &mut Output) -> Result<(), Failure> {
    let bytes = match read(list) {
        Ok(bytes) => bytes,
        Err(failure) => return output.failed_file(list, &failure),
    };
    let lines = bytes.strip_suffix(b"\n").unwrap_or(&bytes);
    for (number, line) in (1..).zip(lines.split(|&byte| byte == b'\n')) {
        match parse(line) {
            Some((wanted, name)) => check_file(&name, &wanted, output)?,
            None => {
                let words = format!(
                    "{}: line {number} is not a digest of 32 hex digits, two blanks and a name",
                    shown(list)
                );
                output.failed_file(list, &Failure::unfit(words))?;
            }
        }
    }
    Ok(())
}

fn check_file(name: &OsStr, wanted: &[u8], output: &mut Output) -> Result<(), Failure> {
    let mut fields = vec![("file", shown(name).into())];
    match digest_of(name) {
        Ok(digest) if digest == wanted => output.answer("ok", &fields),
        Ok(digest) => {
            fields.push(("digest", hex(&digest).into()));
            fields.push(("wanted", hex(wanted).into()));
            output.note(Status::Refused);
            output.answer("differs", &fields)
        }
        Err(failure) => output.failed(fields, &failure),
    }
}

/// The digest and the name of a line of a list; none where it is no such line.
fn parse(line: &[u8]) -> Option<(Vec<u8>, OsString)> {
    let plain = line.strip_prefix(b"\\");
    let (digest, rest) = plain.unwrap_or(line).split_at_checked(32)?;
    let name = rest.strip_prefix(b"  ").or(rest.strip_prefix(b" *"))?;
    let digest = key_text::key(digest, 16).ok()?.as_bytes().to_vec();
    let name = match plain {
        Some(_) => unescaped(name)?,
        None => name.to_vec(),
    };
    (!name.is_empty()).then(|| (digest, OsString::from_vec(name)))
}

/// The name that is shown so.
fn unescaped(name: &[u8]) -> Option<Vec<u8>> {
    let mut bytes = Vec::new();
    let mut rest = name;
    while let Some((&byte, after)) = rest.split_first() {
        rest = after;
        if byte != b'\\' {
            bytes.push(byte);
            continue;
        }
        let (&escape, after) = rest.split_first()?;
        rest = after;
        bytes.push(match escape {
            b'\\' => b'\\',
            b'n' => b'\n',
            b'r' => b'\r',
            b't' => b'\t',
            b'x' => {
                let (digits, after) = rest.split_at_checked(2)?;
                rest = after;
                key_text::key(digits, 1).ok()?.as_bytes()[0]
            }
            _ => return None,
        });
    }
    Some(bytes)
}

/// The digest of the file of this name.
fn digest_of(name: &OsStr) -> Result<[u8; 16], Failure> {
    let mut input = open(name)?;
    let mut state = Md5::new();
    let mut buffer = vec![0; PART];
    loop {
        let length = match input.read(&mut buffer) {
            Ok(0) => return Ok(state.finish()),
            Ok(length) => length,
            Err(error) if error.kind() == io::ErrorKind::Interrupted => continue,
            Err(error) => return Err(Failure::reading(name, &error)),
        };
        state
            .update(&buffer[..length])
            .map_err(|refusal| Failure::refused(name, refusal, ""))?;
    }
}
