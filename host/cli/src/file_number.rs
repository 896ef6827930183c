//! File numbers, and words why a text is none.

use dwarnizza::{NotFileNumber, NumberFault};

use crate::key_text::key_of_any_length;
use crate::looks::looks;
use crate::name::shown_bytes;

/// The file number that this is the text of, or why it is none.
pub fn file_number(text: &[u8]) -> Result<u32, String> {
    dwarnizza::file_number(text).map_err(|fault| {
        let why = words(text, fault);
        match fault.fault {
            NumberFault::Empty => why,
            _ => format!("\"{}\" is no file number: {why}", shown_bytes(text)),
        }
    })
}

fn words(text: &[u8], NotFileNumber { fault, place, .. }: NotFileNumber) -> String {
    match fault {
        NumberFault::Empty => "it is empty, and no file number".to_string(),
        NumberFault::TooGreat => "it is above 4294967295, the highest one".to_string(),
        NumberFault::LeadingZero => {
            let help = looks(text).unwrap_or("a file number has none; is it a key?");
            format!("leading zero: {help}")
        }
        NumberFault::NoDigit => {
            let why = format!("\"{}\" is no digit", character(&text[place..]));
            let help = looks(text).or_else(|| a_key(text)).or_else(|| a_path(text));
            help.map_or(why.clone(), |help| format!("{why}; {help}"))
        }
    }
}

/// The first character, as outputs show it.
fn character(text: &[u8]) -> String {
    let chunk = text.utf8_chunks().next();
    let valid = chunk.and_then(|chunk| chunk.valid().chars().next());
    match valid {
        Some(character) => shown_bytes(character.encode_utf8(&mut [0; 4]).as_bytes()),
        None => shown_bytes(&text[..1]),
    }
}

fn a_key(text: &[u8]) -> Option<&'static str> {
    let key = key_of_any_length(text)?;
    (key.as_bytes().len() == 16)
        .then_some("is it a key? `index find` takes encoding keys, `encoding find` content keys")
}

fn a_path(text: &[u8]) -> Option<&'static str> {
    let has_slash = text.iter().any(|byte| b"/\\".contains(byte));
    has_slash.then_some("is it a path? --path seeks paths")
}
