//! The exit status, and why a command could not do what it was asked.

use std::ffi::OsStr;
use std::io;
use std::process::ExitCode;

use dwarnizza::Refusal;

use crate::name::shown;

/// The exit status. The worst of several counts, which is the highest.
#[derive(Clone, Copy, Debug, PartialEq, Eq, PartialOrd, Ord)]
pub enum Status {
    /// All was answered.
    Answered = 0,
    /// Something sought is absent.
    Absent = 1,
    /// Something was refused.
    Refused = 2,
    /// A file could not be read or written; standard output and standard error are files too.
    Unreadable = 3,
    /// The arguments are wrong.
    Usage = 64,
}

impl From<Status> for ExitCode {
    fn from(status: Status) -> Self {
        ExitCode::from(status as u8)
    }
}

/// Why something could not be done.
#[derive(Clone, Debug)]
pub struct Failure {
    pub status: Status,
    /// What to say on standard error; nothing where it is empty.
    pub words: String,
    /// What the library refused, where it did.
    pub refusal: Option<Refusal>,
    /// The file that was refused, or could not be read or written, as outputs show it.
    pub file: Option<String>,
}

impl Failure {
    pub fn new(status: Status, words: impl Into<String>) -> Self {
        Self {
            status,
            words: words.into(),
            refusal: None,
            file: None,
        }
    }

    pub fn usage(words: impl Into<String>) -> Self {
        Self::new(Status::Usage, words)
    }

    pub fn reading(name: &OsStr, error: &io::Error) -> Self {
        let words = format!("cannot read {}: {error}", shown(name));
        Self::new(Status::Unreadable, words).of_file(name)
    }

    pub fn writing(name: &OsStr, error: &io::Error) -> Self {
        let words = format!("cannot write {}: {error}", shown(name));
        Self::new(Status::Unreadable, words).of_file(name)
    }

    /// Something is refused that the library does not see, such as a row of a list.
    pub fn unfit(words: impl Into<String>) -> Self {
        Self::new(Status::Refused, words)
    }

    /// The library refused this file. `help` says more, and what to do; it may be empty.
    pub fn refused(name: &OsStr, refusal: Refusal, help: &str) -> Self {
        let mut words = format!("{}: {refusal}", shown(name));
        if !help.is_empty() {
            words += &format!("; {help}");
        }
        Self {
            refusal: Some(refusal),
            ..Self::unfit(words).of_file(name)
        }
    }

    /// The same, of this file.
    pub fn of_file(self, name: &OsStr) -> Self {
        Self {
            file: Some(shown(name)),
            ..self
        }
    }

    /// Standard output could not be written. A closed pipe is no news to who closed it.
    pub fn output(error: &io::Error) -> Self {
        let words = match error.kind() {
            io::ErrorKind::BrokenPipe => String::new(),
            _ => format!("cannot write standard output: {error}"),
        };
        Self::new(Status::Unreadable, words)
    }
}
