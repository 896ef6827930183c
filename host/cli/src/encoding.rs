//! `dwarnizza encoding`: encoding files, as they are taken out of their envelopes.

pub mod check;
pub mod find;
pub mod spec;

use std::ffi::OsStr;

use dwarnizza::encoding::{ContentEntry, EncodingEntry};
use dwarnizza::{CheckedEncoding, Encoding, Key, Reason, Refusal, Subject, UncheckedEncoding};

use crate::command::{Arguments, Choice};
use crate::input::read_judged;
use crate::status::Failure;
use crate::words::kind_help;

/// The bytes of an encoding file. One that is refused by its first bytes is not read whole.
pub fn read(name: &OsStr) -> Result<Vec<u8>, Failure> {
    read_judged(name, |first| {
        let refusal = Encoding::check(first).err()?;
        let by_header = refusal.reason.subject() == Subject::EncodingHeader;
        by_header.then(|| refused(name, refusal, first))
    })
}

const UNCHECKED: Choice = Choice {
    name: "--unchecked",
    value: None,
    summary: "do not check the file whole first; a damaged one may then miss a key that it has",
};

/// An encoding file that can be searched.
#[derive(Clone, Copy)]
enum Open<'a> {
    Checked(CheckedEncoding<'a>),
    Unchecked(UncheckedEncoding<'a>),
}

impl<'a> Open<'a> {
    /// Checks the file whole, unless the arguments say `--unchecked`.
    fn new(arguments: &Arguments, file: &'a [u8]) -> Result<Self, Refusal> {
        if arguments.has(UNCHECKED.name) {
            Ok(Self::Unchecked(Encoding::unchecked(file)))
        } else {
            Encoding::check(file).map(Self::Checked)
        }
    }

    fn find_content(self, key: Key) -> Result<Option<ContentEntry<'a>>, Refusal> {
        match self {
            Self::Checked(encoding) => encoding.find_content(key),
            Self::Unchecked(encoding) => encoding.find_content(key),
        }
    }

    fn find_encoding(self, key: Key) -> Result<Option<EncodingEntry<'a>>, Refusal> {
        match self {
            Self::Checked(encoding) => encoding.find_encoding(key),
            Self::Unchecked(encoding) => encoding.find_encoding(key),
        }
    }

    fn spec(self, number: u32) -> Result<&'a [u8], Refusal> {
        match self {
            Self::Checked(encoding) => encoding.spec(number),
            Self::Unchecked(encoding) => encoding.spec(number),
        }
    }
}

/// The library refused this file.
pub fn refused(name: &OsStr, refusal: Refusal, file: &[u8]) -> Failure {
    let help = match refusal.reason {
        Reason::NotEncoding => kind_help(file, "an encoding file"),
        Reason::EncodingCut => "cut in download? Fetch it again".to_string(),
        Reason::EncodingHeader | Reason::SpecTableOpen => {
            "it is damaged: fetch it again".to_string()
        }
        Reason::EncodingPageHash
        | Reason::EntryOverPage
        | Reason::EncodingOrder
        | Reason::FirstKey => {
            "the pages of each kind are counted from 0. It is damaged: fetch it again".to_string()
        }
        Reason::EncodingKeyLength => {
            "as a rule a key has 16 bytes, which are 32 hex digits".to_string()
        }
        _ => String::new(),
    };
    Failure::refused(name, refusal, &help)
}
