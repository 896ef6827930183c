//! `dwarnizza index write`: an archive index from a list of its entries.

mod text;

use std::ffi::OsStr;
use std::path::Path;

use dwarnizza::index::Settings;
use dwarnizza::{Index, Reason, Refusal};

use self::text::{Text, with_line};
use super::IndexFile;
use super::list::RAW;
use crate::command::{Arguments, Choice, Command};
use crate::input::read;
use crate::name::{hex, shown};
use crate::output::Output;
use crate::replace::{FORCE, OUT, write_file};
use crate::status::Failure;

const VERSION: Choice = Choice {
    name: "--index-version",
    value: Some("V"),
    summary: "with --raw: the version, 0 or 1",
};

const OFFSET: Choice = Choice {
    name: "--offset",
    value: Some("W"),
    summary: "with --raw: how many bytes a location has, 4 to 6",
};

const KEY: Choice = Choice {
    name: "--key",
    value: Some("K"),
    summary: "with --raw: how many bytes a key has, 1 to 16",
};

pub const COMMAND: Command = Command {
    name: "index write",
    operands: "LIST -o FILE",
    summary: "write the archive index of a list, as `index list` gives it",
    options: &[OUT, FORCE, RAW, VERSION, OFFSET, KEY],
    help: "\
The settings and the entry count are those of the list's first line; a list that is cut, or a line
that does not fit them, is refused with its number. With --raw the list has the entries' bytes and
no first line, and the three settings are given.
Line:
  written FILE LENGTH NAME
      NAME is the MD5 of the footer, which names an archive. It is said where the file had, or has,
      another name.
  refused LIST NUMBER PLACE
      NUMBER and PLACE are - where the list is no text of a list
  failed FILE
      the list could not be read, or the file not be written",
    run,
};

/// Settings that are right, beside which one other is judged.
const RIGHT: Settings = Settings {
    version: 1,
    offset_width: 4,
    key_length: 16,
};

fn run(arguments: &Arguments, output: &mut Output) -> Result<(), Failure> {
    let list = arguments.one_operand("a list")?;
    let Some(out) = arguments.value(OUT.name) else {
        return Err(Failure::usage("-o FILE is missing"));
    };
    let (settings, bytes) = if arguments.has(RAW.name) {
        (raw_settings(arguments)?, read(list)?)
    } else {
        no_settings(arguments)?;
        Text::open(list)?.entries()?
    };
    let file = Index::write(settings, &bytes).map_err(|refusal| {
        let failure = refused(list, refusal, settings, bytes.len());
        match arguments.has(RAW.name) {
            true => failure,
            false => with_line(failure),
        }
    })?;
    let before = name_of(out);
    write_file(out, &file, arguments.has(FORCE.name))?;
    say(out, &file, before, output)
}

/// The settings that go with bytes.
fn raw_settings(arguments: &Arguments) -> Result<Settings, Failure> {
    let setting = |option: &Choice| {
        let missing = || Failure::usage(format!("{} is missing beside --raw", option.name));
        arguments.number(option.name)?.ok_or_else(missing)
    };
    Ok(Settings {
        version: setting(&VERSION)?,
        offset_width: setting(&OFFSET)?,
        key_length: setting(&KEY)?,
    })
}

/// A text has its settings in its first line.
fn no_settings(arguments: &Arguments) -> Result<(), Failure> {
    let mut options = [VERSION, OFFSET, KEY].into_iter();
    match options.find(|option| arguments.has(option.name)) {
        Some(option) => Err(Failure::usage(format!(
            "{} goes with --raw; a list of text has its settings in its first line",
            option.name
        ))),
        None => Ok(()),
    }
}

/// The name of the index that stands in a file, where one does.
fn name_of(file: &OsStr) -> Option<String> {
    let file = IndexFile::read(file).ok()?;
    let name = file.unchecked().name().ok()?;
    Some(hex(&name))
}

/// The library refused a list of this length.
fn refused(name: &OsStr, refusal: Refusal, settings: Settings, length: usize) -> Failure {
    let help = match refusal.reason {
        Reason::Settings => settings_help(settings),
        Reason::ListLength => format!("it has {length} bytes: cut, or of other settings?"),
        _ => String::new(),
    };
    Failure::refused(name, refusal, &help)
}

/// Which settings are wrong, each judged by the library beside right ones.
fn settings_help(settings: Settings) -> String {
    type With = fn(u8) -> Settings;
    let judged: [(&str, u8, With); 3] = [
        ("version", settings.version, |version| Settings {
            version,
            ..RIGHT
        }),
        ("offset width", settings.offset_width, |offset_width| {
            Settings {
                offset_width,
                ..RIGHT
            }
        }),
        ("key length", settings.key_length, |key_length| Settings {
            key_length,
            ..RIGHT
        }),
    ];
    let wrong = judged
        .iter()
        .filter(|(_, value, with)| !is_right(with(*value)));
    let words = wrong.map(|(name, value, with)| {
        let right: Vec<u8> = (0..=u8::MAX)
            .filter(|&value| is_right(with(value)))
            .collect();
        let (first, last) = (right[0], right[right.len() - 1]);
        format!("the {name} is {first} to {last}, not {value}")
    });
    words.collect::<Vec<_>>().join("; ")
}

fn is_right(settings: Settings) -> bool {
    Index::written_length(settings, &[]).is_ok()
}

/// Says what was written, and where its name is another.
fn say(
    out: &OsStr,
    file: &[u8],
    before: Option<String>,
    output: &mut Output,
) -> Result<(), Failure> {
    let name = hex(&Index::unchecked(file).name().expect("it was written so"));
    output.answer(
        "written",
        &[
            ("file", shown(out).into()),
            ("length", file.len().into()),
            ("name", name.as_str().into()),
        ],
    )?;
    if let Some(before) = before.filter(|before| *before != name) {
        output.say(&format!(
            "{}: its name has changed: the MD5 of its footer was {before} and is {name}",
            shown(out)
        ));
    }
    let stem = Path::new(out).file_stem().unwrap_or_default();
    if stem.len() == name.len() && !stem.eq_ignore_ascii_case(&name) {
        output.say(&format!(
            "{}: by its footer its name is {name}.index, and not {}.index",
            shown(out),
            shown(stem)
        ));
    }
    Ok(())
}
