//! The text of a list, as `dwarnizza index list` gives it.

use std::ffi::{OsStr, OsString};
use std::fs::File;
use std::io::{BufRead, BufReader, Read};

use dwarnizza::index::{Settings, entry_bytes};
use dwarnizza::{Index, Key, Reason};

use super::refused;
use crate::command::decimal;
use crate::input::open;
use crate::key_text::key;
use crate::name::{shown, shown_bytes};
use crate::status::Failure;

/// A list is judged when it has this number of bytes, and each time it has doubled, so that one
/// that is refused is not read to its end.
const FIRST_JUDGED: usize = 1 << 20;

/// The longest line that is read: no line of a list has as many characters.
const MOST_OF_A_LINE: u64 = 1000;

/// A list of text, line by line.
pub struct Text {
    name: OsString,
    input: BufReader<File>,
    /// The number of the line that was read last.
    line: u64,
}

impl Text {
    pub fn open(name: &OsStr) -> Result<Self, Failure> {
        Ok(Self {
            name: name.to_owned(),
            input: BufReader::with_capacity(1 << 16, open(name)?),
            line: 0,
        })
    }

    /// The settings and the entries' bytes.
    pub fn entries(mut self) -> Result<(Settings, Vec<u8>), Failure> {
        let mut line = Vec::new();
        if !self.next(&mut line)? {
            return Err(self.unfit("the list is empty; its first line has the settings"));
        }
        let (settings, count) = first_line(&line).map_err(|why| self.unfit(&why))?;
        self.judge(settings, &[])?;
        let mut list = Vec::new();
        let mut judged_at = FIRST_JUDGED;
        for found in 0..count {
            if !self.next(&mut line)? {
                return Err(self.cut(count, found));
            }
            list.extend(self.entry(settings, &line)?);
            if list.len() >= judged_at {
                self.judge(settings, &list)?;
                judged_at *= 2;
            }
        }
        if self.next(&mut line)? {
            return Err(self.unfit(&format!(
                "the first line says {count} entries, and here is one more"
            )));
        }
        Ok((settings, list))
    }

    /// Reads a line, without its line feed; false at the end.
    fn next(&mut self, line: &mut Vec<u8>) -> Result<bool, Failure> {
        line.clear();
        self.line += 1;
        let input = self.input.by_ref();
        let read = input.take(MOST_OF_A_LINE).read_until(b'\n', line);
        read.map_err(|error| Failure::reading(&self.name, &error))?;
        if line.is_empty() {
            return Ok(false);
        }
        if line.pop() != Some(b'\n') {
            return Err(
                self.unfit("it does not end in a line feed: the list is cut, or is no list")
            );
        }
        Ok(true)
    }

    /// The bytes of the entry on a line.
    fn entry(&self, settings: Settings, line: &[u8]) -> Result<Vec<u8>, Failure> {
        let Entry {
            key,
            size,
            archive,
            offset,
        } = entry(settings, line).map_err(|why| self.unfit(&why))?;
        entry_bytes(settings, key, size, archive, offset).map_err(|refusal| {
            let width = settings.offset_width;
            let why = format!("{refusal}: archive and offset do not fit offset width {width}");
            Failure {
                refusal: Some(refusal),
                ..self.unfit(&why)
            }
        })
    }

    /// Judges the entries so far.
    fn judge(&self, settings: Settings, list: &[u8]) -> Result<(), Failure> {
        let refused = |refusal| refused(&self.name, refusal, settings, list.len());
        match Index::written_length(settings, list) {
            Ok(_) => Ok(()),
            Err(refusal) => Err(with_line(refused(refusal))),
        }
    }

    /// The line that was read last is no line of a list.
    fn unfit(&self, why: &str) -> Failure {
        let name = shown(&self.name);
        Failure::unfit(format!("{name}: line {}: {why}", self.line)).of_file(&self.name)
    }

    fn cut(&self, count: u64, found: u64) -> Failure {
        let name = shown(&self.name);
        Failure::unfit(format!(
            "{name}: the list is cut: its first line says {count} entries, and it has {found}"
        ))
        .of_file(&self.name)
    }
}

/// The settings and the entry count.
fn first_line(line: &[u8]) -> Result<(Settings, u64), String> {
    let wanted = || {
        let found = shown_bytes(&line[..line.len().min(60)]);
        format!(
            "a list begins with `index`, `version=`, `offset=`, `key=` and `entries=`, tabs between, not with {found}"
        )
    };
    let fields: Vec<&[u8]> = line.split(|&byte| byte == b'\t').collect();
    let [b"index", version, offset, key, entries] = fields[..] else {
        return Err(wanted());
    };
    let number = |field: &[u8], name: &str| {
        let digits = field.strip_prefix(name.as_bytes()).and_then(decimal);
        digits.ok_or_else(wanted)
    };
    let setting = |field: &[u8], name: &str| {
        let number = number(field, name)?;
        u8::try_from(number).map_err(|_| format!("{name}{number} is no setting"))
    };
    let settings = Settings {
        version: setting(version, "version=")?,
        offset_width: setting(offset, "offset=")?,
        key_length: setting(key, "key=")?,
    };
    Ok((settings, number(entries, "entries=")?))
}

/// What a line of a list says.
struct Entry {
    key: Key,
    size: u32,
    archive: u32,
    offset: u64,
}

/// The entry on a line, or why there is none.
fn entry(settings: Settings, line: &[u8]) -> Result<Entry, String> {
    let fields: Vec<&[u8]> = line.split(|&byte| byte == b'\t').collect();
    let [text, size, archive, offset] = fields[..] else {
        let found = fields.len();
        return Err(format!(
            "an entry is key, size, archive and offset with tabs between, and here are {found} fields"
        ));
    };
    Ok(Entry {
        key: key(text, settings.key_length)?,
        size: narrow(number(size, "size")?, "size")?,
        archive: archive_number(settings, archive)?,
        offset: number(offset, "offset")?,
    })
}

/// The archive number, which is 0 where locations have none.
fn archive_number(settings: Settings, text: &[u8]) -> Result<u32, String> {
    let width = settings.offset_width;
    match (text, settings.has_archives()) {
        (b"-", true) => Err(format!(
            "offset width {width} wants an archive number, not -"
        )),
        (b"-", false) => Ok(0),
        (text, true) => narrow(number(text, "archive number")?, "archive number"),
        (text, false) => {
            let text = shown_bytes(text);
            Err(format!(
                "offset width {width} has - for the archive, not \"{text}\""
            ))
        }
    }
}

fn number(text: &[u8], what: &str) -> Result<u64, String> {
    decimal(text).ok_or_else(|| format!("\"{}\" is no {what}", shown_bytes(text)))
}

fn narrow(number: u64, what: &str) -> Result<u32, String> {
    u32::try_from(number).map_err(|_| format!("{number} is above any {what}"))
}

/// The same with the line of the entry that was refused: entries begin on the second line.
pub fn with_line(failure: Failure) -> Failure {
    let Some(refusal) = failure
        .refusal
        .filter(|refusal| refusal.reason == Reason::IndexOrder)
    else {
        return failure;
    };
    let words = format!(
        "{}; line {} of the list has this key",
        failure.words,
        refusal.place + 2
    );
    Failure { words, ..failure }
}
