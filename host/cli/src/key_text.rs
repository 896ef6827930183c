//! The text of a key, and words why a text is none.

use dwarnizza::Key;

use crate::looks::looks;
use crate::name::shown_bytes;

/// The key of this length that this is the text of, or why it is none. A short text is never
/// padded and no text is cut.
pub fn key(text: &[u8], key_length: u8) -> Result<Key, String> {
    Key::from_text(text, key_length).map_err(|refusal| {
        let digits = 2 * usize::from(key_length);
        let said = shown_bytes(text);
        let why = match characters(text) {
            0 => format!("it is empty, a key has {digits} characters"),
            found if found != digits => {
                let plural = if found == 1 { "" } else { "s" };
                format!("\"{said}\" has {found} character{plural}, a key has {digits}")
            }
            _ => format!("\"{said}\" is no key: {refusal}"),
        };
        let help = looks(text).or_else(|| number(text));
        help.map_or(why.clone(), |help| format!("{why}; {help}"))
    })
}

fn number(text: &[u8]) -> Option<&'static str> {
    let number = dwarnizza::file_number(text).ok();
    number.map(|_| "is it a file number?")
}

/// The key that this is the text of, of whatever length.
pub fn key_of_any_length(text: &[u8]) -> Option<Key> {
    let length = u8::try_from(text.len() / 2).ok()?;
    Key::from_text(text, length).ok()
}

/// Characters as a person counts them; bytes where it is no text.
fn characters(text: &[u8]) -> usize {
    str::from_utf8(text).map_or(text.len(), |text| text.chars().count())
}
