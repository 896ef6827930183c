//! Names of files, and other text from outside, as every output shows them.

use std::ffi::OsStr;

/// A name on one line, without tabs: a backslash and what is no printable text are escaped, as
/// `\\`, `\t`, `\n`, `\r`, or `\x` and two hex digits for each byte. Two names never look alike.
pub fn shown(name: impl AsRef<OsStr>) -> String {
    shown_bytes(name.as_ref().as_encoded_bytes())
}

/// The same for any bytes.
pub fn shown_bytes(bytes: &[u8]) -> String {
    let mut text = String::new();
    for chunk in bytes.utf8_chunks() {
        for character in chunk.valid().chars() {
            push(&mut text, character);
        }
        push_bytes(&mut text, chunk.invalid());
    }
    text
}

/// A path on one line, with its own backslashes: as it is given, where it is printable text, and
/// else escaped as every other text is.
pub fn shown_path(path: &[u8]) -> String {
    let escaped = shown_bytes(path);
    match str::from_utf8(path) {
        Ok(path) if escaped == path.replace('\\', r"\\") => path.to_string(),
        _ => escaped,
    }
}

fn push(text: &mut String, character: char) {
    match character {
        '\\' => text.push_str(r"\\"),
        '\t' => text.push_str(r"\t"),
        '\n' => text.push_str(r"\n"),
        '\r' => text.push_str(r"\r"),
        _ if character.is_control() || turns_text(character) => {
            push_bytes(text, character.encode_utf8(&mut [0; 4]).as_bytes());
        }
        _ => text.push(character),
    }
}

/// Line and paragraph separators, and characters that turn the direction of what follows.
fn turns_text(character: char) -> bool {
    matches!(character, '\u{200e}' | '\u{200f}' | '\u{2028}'..='\u{202e}' | '\u{2066}'..='\u{2069}')
}

fn push_bytes(text: &mut String, bytes: &[u8]) {
    for byte in bytes {
        text.push_str(&format!("\\x{byte:02x}"));
    }
}

/// Bytes in lower-case hex.
pub fn hex(bytes: &[u8]) -> String {
    const DIGITS: &[u8; 16] = b"0123456789abcdef";
    let digit = |half: u8| char::from(DIGITS[usize::from(half)]);
    let digits = |&byte: &u8| [digit(byte >> 4), digit(byte & 15)];
    bytes.iter().flat_map(digits).collect()
}
