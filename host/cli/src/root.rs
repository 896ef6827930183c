//! `dwarnizza root`: root files, as they are taken out of their envelopes.

pub mod check;
pub mod find;
pub mod search;

use std::ffi::OsStr;

use dwarnizza::{CheckedRoot, Reason, Refusal, Root};

use crate::input;
use crate::status::Failure;
use crate::words::{ROOT, kind, kind_help};

/// The bytes of a root file.
pub fn read(name: &OsStr) -> Result<Vec<u8>, Failure> {
    input::read(name)
}

/// The root file, after its full check.
pub fn checked<'a>(name: &OsStr, file: &'a [u8]) -> Result<CheckedRoot<'a>, Failure> {
    Root::check(file).map_err(|refusal| refused(name, refusal, file))
}

/// The library refused this file.
fn refused(name: &OsStr, refusal: Refusal, file: &[u8]) -> Failure {
    let has_magic = kind(file) == Some(ROOT);
    let help = match refusal.reason {
        Reason::RootVersion => "this version is not read".to_string(),
        Reason::BlockCut | Reason::IdRange if !has_magic => kind_help(file, ROOT),
        _ => "cut in download, or damaged? Fetch it again".to_string(),
    };
    Failure::refused(name, refusal, &help)
}
