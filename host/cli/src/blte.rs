//! `dwarnizza blte`: envelopes of plain chunks.

pub mod key;
pub mod open;

use std::ffi::OsStr;

use dwarnizza::{Envelope, Reason, Refusal};

use crate::input::read_judged;
use crate::status::Failure;
use crate::words::kind_help;

/// The bytes of an envelope. A file that is none by its first bytes is not read whole.
fn read(name: &OsStr) -> Result<Vec<u8>, Failure> {
    read_judged(name, |first| {
        let refusal = Envelope::key_of(first).err()?;
        let by_magic = refusal.reason == Reason::NotBlte;
        by_magic.then(|| refused(name, refusal, first))
    })
}

/// The library refused this file.
fn refused(name: &OsStr, refusal: Refusal, file: &[u8]) -> Failure {
    let help = match refusal.reason {
        Reason::NotBlte => kind_help(file, "an envelope"),
        Reason::ChunkSizes => "cut in download? Fetch it again".to_string(),
        Reason::EnvelopeHeader | Reason::ChunkHash | Reason::DecodedSize => {
            "it is damaged: fetch it again".to_string()
        }
        Reason::ChunkMode => "packed and encrypted chunks are not opened".to_string(),
        Reason::EnvelopeKey => {
            "it is another envelope; `dwarnizza blte key` tells its key".to_string()
        }
        _ => String::new(),
    };
    Failure::refused(name, refusal, &help)
}
