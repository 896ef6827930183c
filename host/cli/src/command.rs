//! Commands and their arguments.
//!
//! A command names its options; the frame parses the arguments by them, answers `--help`, `-h` and
//! `--version`, and hands the rest to `run`. `--json` is an option of every command. An option's
//! value follows it (`--key 16`) or is joined to it (`--key=16`); after `--` all are operands, and
//! `-` is an operand.

use std::ffi::{OsStr, OsString};

use crate::name::shown;
use crate::output::Output;
use crate::status::Failure;

/// A command: one or two words, such as `md5` or `index check`.
pub struct Command {
    pub name: &'static str,
    /// Its operands, as the usage shows them.
    pub operands: &'static str,
    /// What it does, in one line.
    pub summary: &'static str,
    pub options: &'static [Choice],
    /// What `--help` says after the options: above all the lines that it prints.
    pub help: &'static str,
    pub run: fn(&Arguments, &mut Output) -> Result<(), Failure>,
}

/// An option of a command.
pub struct Choice {
    /// With its dashes.
    pub name: &'static str,
    /// What its value is called, where it has one. With dots at the end, as in `FILE...`, the
    /// option may be given several times.
    pub value: Option<&'static str>,
    pub summary: &'static str,
}

impl Choice {
    /// Whether it may be given several times.
    fn many(&self) -> bool {
        self.value.is_some_and(|value| value.ends_with("..."))
    }
}

/// The option that every command has.
pub const JSON: Choice = Choice {
    name: "--json",
    value: None,
    summary: "print a JSON object for each line",
};

/// The arguments of a command, by its options.
pub struct Arguments {
    options: Vec<(&'static str, OsString)>,
    pub operands: Vec<OsString>,
    /// `--help` or `--version` was asked for.
    pub asked: Option<Asked>,
}

#[derive(Clone, Copy, PartialEq, Eq)]
pub enum Asked {
    Help,
    Version,
}

impl Arguments {
    /// Parses what follows the command's name.
    pub fn parse(command: &Command, arguments: &[OsString]) -> Result<Self, Failure> {
        let mut parsed = Self {
            options: Vec::new(),
            operands: Vec::new(),
            asked: None,
        };
        let mut rest = arguments.iter();
        while let Some(argument) = rest.next() {
            if argument == "--" {
                parsed.operands.extend(rest.cloned());
                break;
            }
            if argument == "-" || !argument.as_encoded_bytes().starts_with(b"-") {
                parsed.operands.push(argument.clone());
            } else if let Some(asked) = asked(argument) {
                parsed.asked = parsed.asked.or(Some(asked));
            } else {
                let (choice, value) = parse_option(command, argument, &mut rest)?;
                if parsed.has(choice.name) && !choice.many() {
                    return Err(Failure::usage(format!("{} is given twice", choice.name)));
                }
                parsed.options.push((choice.name, value));
            }
        }
        Ok(parsed)
    }

    /// Whether this option is given.
    pub fn has(&self, option: &str) -> bool {
        self.value(option).is_some()
    }

    /// The value of this option; empty where it takes none.
    pub fn value(&self, option: &str) -> Option<&OsStr> {
        let mut options = self.options.iter();
        let (_, value) = options.find(|(name, _)| *name == option)?;
        Some(value)
    }

    /// The values of an option that may be given several times.
    pub fn values(&self, option: &str) -> Vec<OsString> {
        let options = self.options.iter().filter(|(name, _)| *name == option);
        options.map(|(_, value)| value.clone()).collect()
    }

    /// The value of this option as a number of digits only, none with a leading zero but 0.
    pub fn number<T: TryFrom<u64>>(&self, option: &str) -> Result<Option<T>, Failure> {
        let Some(value) = self.value(option) else {
            return Ok(None);
        };
        let number = decimal(value.as_encoded_bytes()).and_then(|number| T::try_from(number).ok());
        let unfit = || Failure::usage(format!("{option} wants a number, not {}", shown(value)));
        number.map(Some).ok_or_else(unfit)
    }

    /// The only operand.
    pub fn one_operand(&self, what: &str) -> Result<&OsStr, Failure> {
        match &self.operands[..] {
            [] => Err(Failure::usage(format!("{what} is missing"))),
            [operand] => Ok(operand),
            [_, more, ..] => Err(Failure::usage(format!(
                "there is one operand too many: {}",
                shown(more)
            ))),
        }
    }

    /// All operands, of which there must be one.
    pub fn some_operands(&self, what: &str) -> Result<&[OsString], Failure> {
        if self.operands.is_empty() {
            return Err(Failure::usage(format!("{what} is missing")));
        }
        Ok(&self.operands)
    }
}

/// Decimal digits without a leading zero, as a number of 64 bits.
pub fn decimal(text: &[u8]) -> Option<u64> {
    let plain =
        text.iter().all(u8::is_ascii_digit) && (text.len() == 1 || text.first() != Some(&b'0'));
    let text = str::from_utf8(text).ok()?;
    if plain { text.parse().ok() } else { None }
}

/// What `--help`, `-h` or `--version` asks.
pub fn asked(argument: &OsStr) -> Option<Asked> {
    match argument.to_str()? {
        "--help" | "-h" => Some(Asked::Help),
        "--version" => Some(Asked::Version),
        _ => None,
    }
}

/// An option of the command, with its value.
fn parse_option<'a>(
    command: &Command,
    argument: &OsStr,
    rest: &mut impl Iterator<Item = &'a OsString>,
) -> Result<(&'static Choice, OsString), Failure> {
    let (name, joined) = split(argument);
    let mut choices = command.options.iter().chain([&JSON]);
    let Some(choice) = choices.find(|choice| name == choice.name) else {
        return Err(Failure::usage(format!(
            "there is no option {}",
            shown(name)
        )));
    };
    let value = match (choice.value, joined) {
        (None, None) => OsString::new(),
        (None, Some(_)) => return Err(Failure::usage(format!("{} takes no value", choice.name))),
        (Some(_), Some(value)) => value,
        (Some(what), None) => match rest.next() {
            Some(value) => value.clone(),
            None => {
                return Err(Failure::usage(format!(
                    "{} wants {what} after it",
                    choice.name
                )));
            }
        },
    };
    Ok((choice, value))
}

/// An argument before and after its first `=`.
fn split(argument: &OsStr) -> (OsString, Option<OsString>) {
    use std::os::unix::ffi::{OsStrExt, OsStringExt};
    let bytes = argument.as_bytes();
    let part = |part: &[u8]| OsString::from_vec(part.to_vec());
    match bytes.iter().position(|&byte| byte == b'=') {
        Some(place) if bytes.starts_with(b"--") => {
            (part(&bytes[..place]), Some(part(&bytes[place + 1..])))
        }
        _ => (part(bytes), None),
    }
}
