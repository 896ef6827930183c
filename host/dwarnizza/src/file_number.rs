//! File numbers (FileDataIDs) as text.

use std::error::Error;
use std::fmt;

use crate::answer::{Search, number, size, unrefused};
use crate::library;

/// The file number that this is the decimal text of: digits and nothing else, with no zero in front
/// of others, and at most 4,294,967,295. So no two texts have the same number.
///
/// ```
/// use dwarnizza::{NumberFault, file_number};
///
/// assert_eq!(file_number(b"417"), Ok(417));
/// assert_eq!(file_number(b"0"), Ok(0));
/// assert_eq!(file_number(b"00417").unwrap_err().fault, NumberFault::LeadingZero);
/// let wrong = file_number(b"41,7").unwrap_err();
/// assert_eq!((wrong.fault, wrong.place), (NumberFault::NoDigit, 2));
/// ```
pub fn file_number(text: &[u8]) -> Result<u32, NotFileNumber> {
    match unrefused(library::file_number(text)) {
        Search::Found([id, ..]) => Ok(number(id)),
        Search::Absent([fault, place, ..]) => Err(NotFileNumber {
            fault: NumberFault::from_word(fault),
            place: size(place),
        }),
    }
}

/// Why a text is no file number, and where.
///
/// ```
/// let wrong = dwarnizza::file_number(b"4294967296").unwrap_err();
/// assert_eq!(wrong.to_string(), "above 4,294,967,295 (byte 9)");
/// ```
#[derive(Clone, Copy, Debug, PartialEq, Eq, Hash)]
pub struct NotFileNumber {
    /// What is wrong.
    pub fault: NumberFault,
    /// The byte, from 0: the first that is no digit, or the digit by which the number passes
    /// 4,294,967,295; 0 where the text is empty or has a leading zero.
    pub place: usize,
}

impl fmt::Display for NotFileNumber {
    fn fmt(&self, f: &mut fmt::Formatter<'_>) -> fmt::Result {
        write!(f, "{} (byte {})", self.fault, self.place)
    }
}

impl Error for NotFileNumber {}

/// What is wrong with a text that is no file number. Where several hold, the first of them is told.
///
/// ```
/// use dwarnizza::{NumberFault, file_number};
///
/// assert_eq!(file_number(b"").unwrap_err().fault, NumberFault::Empty);
/// assert_eq!(NumberFault::Empty.to_string(), "empty");
/// ```
#[derive(Clone, Copy, Debug, PartialEq, Eq, PartialOrd, Ord, Hash)]
pub enum NumberFault {
    /// The text has no byte.
    Empty,
    /// The text begins with 0, and more follows.
    LeadingZero,
    /// A byte is no decimal digit.
    NoDigit,
    /// The number is above 4,294,967,295.
    TooGreat,
}

impl NumberFault {
    /// The fault that a word names.
    fn from_word(word: u64) -> Self {
        match word {
            1 => NumberFault::Empty,
            2 => NumberFault::LeadingZero,
            3 => NumberFault::NoDigit,
            4 => NumberFault::TooGreat,
            _ => panic!("the library named fault {word} of four"),
        }
    }
}

impl fmt::Display for NumberFault {
    fn fmt(&self, f: &mut fmt::Formatter<'_>) -> fmt::Result {
        f.write_str(match self {
            NumberFault::Empty => "empty",
            NumberFault::LeadingZero => "leading zero",
            NumberFault::NoDigit => "not a digit",
            NumberFault::TooGreat => "above 4,294,967,295",
        })
    }
}
