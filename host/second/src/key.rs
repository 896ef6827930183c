//! Key text.

use crate::refusal::{self, Refusal};

/// The key of K bytes that this is the text of; refuses with 11, 60, 61 in this order.
pub fn from_text(text: &[u8], key_length: u32) -> Result<Vec<u8>, Refusal> {
    if !matches!(key_length, 1..=16) {
        return Err(refusal::SETTINGS);
    }
    if text.len() != 2 * key_length as usize {
        return Err(refusal::KEY_TEXT_LENGTH);
    }
    let digits: Vec<u8> = text
        .iter()
        .enumerate()
        .map(|(place, &character)| digit(character).ok_or(refusal::hex_digit(place)))
        .collect::<Result<_, _>>()?;
    let (pairs, _) = digits.as_chunks();
    Ok(pairs.iter().map(|[high, low]| high << 4 | low).collect())
}

/// The value of a hex digit, in either case.
fn digit(character: u8) -> Option<u8> {
    match character {
        b'0'..=b'9' => Some(character - b'0'),
        b'a'..=b'f' => Some(character - b'a' + 10),
        b'A'..=b'F' => Some(character - b'A' + 10),
        _ => None,
    }
}
