//! What the second program says, in the words that the header names.

use std::fmt;

use second::index::{Found, Index, Lookup};
use second::refusal::Refusal;

use crate::lent::Words;

/// The three results, and their words.
#[derive(Clone, Copy, Debug, PartialEq, Eq)]
pub struct Said {
    /// 0 answered, 1 absent, 2 refused.
    pub result: u32,
    /// The answer.
    pub words: Words,
}

/// The result of a call that is answered.
pub const ANSWERED: u32 = 0;

/// The result where what is sought is absent.
pub const ABSENT: u32 = 1;

/// The result of a call that is refused.
pub const REFUSED: u32 = 2;

impl Said {
    /// Answered, with these words and zeros.
    pub fn answered<const N: usize>(words: [u64; N]) -> Self {
        Self::with(ANSWERED, words)
    }

    /// Absent, with these words and zeros.
    pub fn absent<const N: usize>(words: [u64; N]) -> Self {
        Self::with(ABSENT, words)
    }

    /// Refused, at this link of the chain or 0.
    pub fn refused(refusal: Refusal, link: u64) -> Self {
        Self::with(REFUSED, [refusal.number.into(), refusal.place, link])
    }

    fn with<const N: usize>(result: u32, words: [u64; N]) -> Self {
        let mut said = Self {
            result,
            words: [0; 8],
        };
        said.words[..N].copy_from_slice(&words);
        said
    }

    /// Answered with the words of the value, or refused.
    pub fn of<T, const N: usize>(
        told: Result<T, Refusal>,
        words: impl FnOnce(T) -> [u64; N],
    ) -> Self {
        match told {
            Ok(value) => Self::answered(words(value)),
            Err(refusal) => Self::refused(refusal, 0),
        }
    }

    /// The same where the value may be absent.
    pub fn of_found<T, const N: usize>(
        told: Result<Option<T>, Refusal>,
        words: impl FnOnce(T) -> [u64; N],
    ) -> Self {
        match told {
            Ok(Some(value)) => Self::answered(words(value)),
            Ok(None) => Self::absent([]),
            Err(refusal) => Self::refused(refusal, 0),
        }
    }

    /// Answered with a length or a count.
    pub fn of_length(told: Result<usize, Refusal>) -> Self {
        Self::of(told, |length| [length as u64])
    }

    /// Answered with 16 bytes, which go to the output.
    pub fn of_16(told: Result<[u8; 16], Refusal>, output: &mut [u8]) -> Self {
        Self::of(told, |bytes| {
            output.copy_from_slice(&bytes);
            []
        })
    }
}

impl fmt::Display for Said {
    fn fmt(&self, f: &mut fmt::Formatter<'_>) -> fmt::Result {
        match self.result {
            ANSWERED => write!(f, "answered {:?}", self.words),
            ABSENT => write!(f, "absent {:?}", self.words),
            REFUSED => write!(f, "refused {:?}", self.words),
            result => write!(f, "result {result} {:?}", self.words),
        }
    }
}

/// Version, W, K, n and P.
pub fn settings(index: Index<'_>) -> [u64; 5] {
    let settings = index.settings();
    [
        settings.version.into(),
        settings.offset_width.into(),
        settings.key_length.into(),
        index.entries() as u64,
        index.pages() as u64,
    ]
}

/// What a lookup in an index says.
pub fn lookup(Lookup { found, compared }: Lookup) -> Said {
    match found {
        Some(found) => Said::answered(place_in_archive(found, compared)),
        None => Said::absent([0, 0, 0, 0, compared.into()]),
    }
}

/// Page, slot, encoded size, location and count.
pub fn place_in_archive(found: Found, compared: u32) -> [u64; 5] {
    [
        found.page as u64,
        found.slot as u64,
        found.size.into(),
        found.location,
        compared.into(),
    ]
}

/// Where a part of a file stands in it, and its length.
pub fn part(file: &[u8], part: &[u8]) -> [u64; 2] {
    let place = part.as_ptr().addr() - file.as_ptr().addr();
    [place as u64, part.len() as u64]
}
