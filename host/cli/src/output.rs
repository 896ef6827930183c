//! What a command says: answers on standard output, a line each, and words on standard error.
//!
//! An answer is a word (`ok`, `found`, `absent`, `refused`, `failed`, ..) and fields. Its line has
//! the word and the fields' values with a tab between, `-` where a field has none; with `--json` it
//! is one object, `{"answer":WORD,FIELD:VALUE,..}`, with `null` where a field has none.

use std::ffi::OsStr;
use std::fs::File;
use std::io::{self, BufWriter, IsTerminal, Write};
use std::os::fd::{AsFd, BorrowedFd};
use std::time::{Duration, Instant};

use crate::name::shown;
use crate::status::{Failure, Status};

/// How long a progress line stays, and how long an answer may wait to be written.
const PROGRESS: Duration = Duration::from_millis(100);

/// A value of a field.
#[derive(Clone)]
pub enum Value {
    /// Text that came through [`shown`](crate::name::shown), or that has no such characters.
    Text(String),
    Number(u64),
    None,
}

/// A field of an answer: its name in JSON, and its value.
pub type Field = (&'static str, Value);

/// Standard output and standard error, and the worst status so far.
pub struct Output {
    answers: BufWriter<Box<dyn Write>>,
    words: Box<dyn Write>,
    /// Whether standard error is a terminal, which shows progress.
    terminal: bool,
    /// Standard output is a terminal: answers and words come in their order.
    immediate: bool,
    pub json: bool,
    /// Standard output takes the content of a file, and no lines.
    pub content: bool,
    status: Status,
    /// Standard output has failed once, and is not tried again.
    broken: bool,
    /// When the progress line that stands there was said.
    progress: Option<Instant>,
    /// When the answers were written last.
    flushed: Instant,
}

impl Output {
    pub fn new() -> Self {
        Self {
            answers: BufWriter::with_capacity(1 << 16, stream(io::stdout().as_fd())),
            words: stream(io::stderr().as_fd()),
            terminal: io::stderr().is_terminal(),
            immediate: io::stdout().is_terminal(),
            json: false,
            content: false,
            status: Status::Answered,
            broken: false,
            progress: None,
            flushed: Instant::now(),
        }
    }

    /// Says an answer.
    pub fn answer(&mut self, word: &str, fields: &[Field]) -> Result<(), Failure> {
        let line = if self.json {
            json_line(word, fields)
        } else {
            text_line(word, fields)
        };
        self.bytes(line.as_bytes())
    }

    /// Says that a file was refused, with number and place, or could not be read or written.
    pub fn failed_file(
        &mut self,
        name: impl AsRef<OsStr>,
        failure: &Failure,
    ) -> Result<(), Failure> {
        self.failed_shown(shown(name), failure)
    }

    /// The same of a name that is shown so.
    fn failed_shown(&mut self, file: String, failure: &Failure) -> Result<(), Failure> {
        let mut fields: Vec<Field> = vec![("file", file.into())];
        if failure.status == Status::Refused && failure.refusal.is_none() {
            fields.extend([("number", Value::None), ("place", Value::None)]);
        }
        self.failed(fields, failure)
    }

    /// Says why the command could not be done: of a file, where it is one that failed.
    pub fn failed_command(&mut self, failure: &Failure) -> Result<(), Failure> {
        match &failure.file {
            Some(file) if !self.content => self.failed_shown(file.clone(), failure),
            _ => {
                self.fail(failure);
                Ok(())
            }
        }
    }

    /// Says an answer that is a failure: `refused`, or `failed` where a file could not be read or
    /// written. Its words go to standard error and, with `--json`, into the answer.
    pub fn failed(&mut self, fields: Vec<Field>, failure: &Failure) -> Result<(), Failure> {
        let mut fields = fields;
        if let Some(refusal) = failure.refusal {
            fields.push(("number", refusal.number().into()));
            fields.push(("place", refusal.place.into()));
        }
        if self.json {
            fields.push(("words", failure.words.as_str().into()));
        }
        let word = match failure.status {
            Status::Refused => "refused",
            _ => "failed",
        };
        self.answer(word, &fields)?;
        self.fail(failure);
        Ok(())
    }

    /// Puts bytes on standard output as they are.
    pub fn bytes(&mut self, bytes: &[u8]) -> Result<(), Failure> {
        self.erase_progress();
        let written = self.answers.write_all(bytes);
        self.judge_output(written)?;
        if self.immediate || self.flushed.elapsed() >= PROGRESS {
            return self.flush();
        }
        Ok(())
    }

    /// Writes the answers that were said so far, so that a run that is ended has said them.
    pub fn flush(&mut self) -> Result<(), Failure> {
        let written = self.answers.flush();
        self.flushed = Instant::now();
        self.judge_output(written)
    }

    fn judge_output(&mut self, written: io::Result<()>) -> Result<(), Failure> {
        written.map_err(|error| {
            self.broken = true;
            Failure::output(&error)
        })
    }

    /// Says words on standard error, with the program's name before them.
    pub fn say(&mut self, words: &str) {
        self.erase_progress();
        self.error_bytes(format!("dwarnizza: {words}\n").as_bytes());
    }

    /// Puts bytes on standard error as they are. Where that fails, the status tells.
    pub fn error_bytes(&mut self, bytes: &[u8]) {
        if self.words.write_all(bytes).is_err() {
            self.note(Status::Unreadable);
        }
    }

    /// Shows on a terminal what is being done, until something is said.
    pub fn phase(&mut self, words: &str) {
        if self.terminal {
            self.erase_progress();
            self.error_bytes(words.as_bytes());
            self.progress = Some(Instant::now());
        }
    }

    /// Shows on a terminal how many of all files are done.
    pub fn progress(&mut self, done: usize, all: usize) {
        self.progress_of("indexes", done, all);
    }

    /// The same of other things, at most ten times a second; the last one takes the line away.
    pub fn progress_of(&mut self, what: &str, done: usize, all: usize) {
        let recent = |said: Instant| said.elapsed() < PROGRESS;
        if !self.terminal || all < 2 || (done < all && self.progress.is_some_and(recent)) {
            return;
        }
        self.erase_progress();
        if done < all {
            self.phase(&format!("{done} of {all} {what}"));
        }
    }

    fn erase_progress(&mut self) {
        if self.progress.take().is_some() {
            self.error_bytes(b"\r\x1b[K");
        }
    }

    /// Says why something failed, and notes its status.
    pub fn fail(&mut self, failure: &Failure) {
        self.note(failure.status);
        if !failure.words.is_empty() {
            self.say(&failure.words);
        }
    }

    /// Counts a status: the worst of all is that of the program.
    pub fn note(&mut self, status: Status) {
        self.status = self.status.max(status);
    }

    /// The last thing of the program: all answers go out, and the status is known.
    pub fn end(mut self) -> Status {
        if !self.broken
            && let Err(error) = self.answers.flush()
        {
            self.broken = true;
            self.fail(&Failure::output(&error));
        }
        if self.broken {
            // Without this, dropping the buffer writes it once more.
            let _ = self.answers.into_parts();
        }
        self.status
    }
}

/// The stream itself: the standard handles take a closed one for a written one.
fn stream(handle: BorrowedFd<'_>) -> Box<dyn Write> {
    match handle.try_clone_to_owned() {
        Ok(handle) => Box::new(File::from(handle)),
        Err(error) => Box::new(Broken(error.kind())),
    }
}

/// A stream that cannot be had.
struct Broken(io::ErrorKind);

impl Write for Broken {
    fn write(&mut self, _: &[u8]) -> io::Result<usize> {
        Err(self.0.into())
    }

    fn flush(&mut self) -> io::Result<()> {
        Err(self.0.into())
    }
}

fn text_line(word: &str, fields: &[Field]) -> String {
    format!("{word}\t{}\n", text_of(fields))
}

/// The values of fields with tabs between.
pub fn text_of(fields: &[Field]) -> String {
    let mut text = String::new();
    for (number, (_, value)) in fields.iter().enumerate() {
        if number > 0 {
            text.push('\t');
        }
        match value {
            Value::Text(value) => text += value,
            Value::Number(number) => text += &number.to_string(),
            Value::None => text.push('-'),
        }
    }
    text
}

fn json_line(word: &str, fields: &[Field]) -> String {
    let mut line = format!("{{\"answer\":{}", quoted(word));
    for (name, value) in fields {
        line += &format!(",\"{name}\":");
        match value {
            Value::Text(text) => line += &quoted(text),
            Value::Number(number) => line += &number.to_string(),
            Value::None => line += "null",
        }
    }
    line + "}\n"
}

/// A JSON string.
fn quoted(text: &str) -> String {
    let mut quoted = "\"".to_string();
    for character in text.chars() {
        match character {
            '"' | '\\' => quoted.extend(['\\', character]),
            '\0'..='\x1f' => quoted += &format!("\\u{:04x}", u32::from(character)),
            _ => quoted.push(character),
        }
    }
    quoted + "\""
}

impl From<String> for Value {
    fn from(text: String) -> Self {
        Value::Text(text)
    }
}

impl From<&str> for Value {
    fn from(text: &str) -> Self {
        Value::Text(text.to_string())
    }
}

impl From<u64> for Value {
    fn from(number: u64) -> Self {
        Value::Number(number)
    }
}

impl From<u32> for Value {
    fn from(number: u32) -> Self {
        Value::Number(number.into())
    }
}

impl From<u8> for Value {
    fn from(number: u8) -> Self {
        Value::Number(number.into())
    }
}

impl From<usize> for Value {
    fn from(number: usize) -> Self {
        Value::Number(number as u64)
    }
}

impl<T: Into<Value>> From<Option<T>> for Value {
    fn from(value: Option<T>) -> Self {
        value.map_or(Value::None, T::into)
    }
}
