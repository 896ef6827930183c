//! File numbers (FileDataIDs) as decimal text.

/// What keeps a text from being a file number.
#[derive(Clone, Copy, Debug, PartialEq, Eq)]
pub enum Fault {
    /// It has no byte.
    Empty,
    /// Its first byte is 0, and more follow.
    LeadingZero,
    /// A byte is no digit.
    NoDigit,
    /// It is above 4,294,967,295.
    TooGreat,
}

/// What is wrong with a text, and at which byte.
#[derive(Clone, Copy, Debug, PartialEq, Eq)]
pub struct NotFileNumber {
    /// What.
    pub fault: Fault,
    /// Where.
    pub place: usize,
}

/// The number that the text is, or the first fault, in the order of [`Fault`].
pub fn file_number(text: &[u8]) -> Result<u32, NotFileNumber> {
    let wrong = |fault, place| Err(NotFileNumber { fault, place });
    if text.is_empty() {
        return wrong(Fault::Empty, 0);
    }
    if text.len() > 1 && text[0] == b'0' {
        return wrong(Fault::LeadingZero, 0);
    }
    if let Some(place) = text.iter().position(|byte| !byte.is_ascii_digit()) {
        return wrong(Fault::NoDigit, place);
    }
    let mut number = 0;
    for (place, digit) in text.iter().enumerate() {
        number = number * 10 + u64::from(digit - b'0');
        if number > u32::MAX.into() {
            return wrong(Fault::TooGreat, place);
        }
    }
    Ok(number as u32)
}
