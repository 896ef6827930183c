//! Whether the first row of a list is a header, where nobody said so.

use crate::batch::Texts;

/// Letters that are read for digits.
const LOOK_ALIKES: &[u8] = b"OoQqIiLlSsZzBb";

/// What a column of paths is called, in lower case.
const PATH_WORDS: [&str; 12] = [
    "path",
    "paths",
    "file",
    "files",
    "filename",
    "file name",
    "file_name",
    "filepath",
    "file path",
    "file_path",
    "name",
    "names",
];

/// Whether this field of the first row is a header's, in a column of such texts. A path may be any
/// word but those that a column of paths is called.
pub fn is_header(texts: Texts, field: &[u8]) -> bool {
    let is = |word: &&str| field.eq_ignore_ascii_case(word.as_bytes());
    match texts {
        Texts::Plain => is_plain_word(field),
        Texts::Paths => PATH_WORDS.iter().any(is),
    }
}

/// Whether this is a plain word that is neither near a file number nor near a key. It begins with
/// a letter and has letters, digits, blanks, `_`, `-` and `.` only. It has more letters than digits,
/// no three digits in a row, and a letter that is not read for a digit. At most three quarters of
/// its letters and digits are hex digits.
fn is_plain_word(text: &[u8]) -> bool {
    let count = |is: fn(&u8) -> bool| text.iter().filter(|byte| is(byte)).count();
    let (letters, digits) = (count(u8::is_ascii_alphabetic), count(u8::is_ascii_digit));
    let plain = |byte: &u8| byte.is_ascii_alphanumeric() || b" _-.".contains(byte);
    let near_a_number = digits >= letters
        || text
            .windows(3)
            .any(|three| three.iter().all(u8::is_ascii_digit))
        || !text.iter().any(is_sure_letter);
    let near_a_key = 4 * count(u8::is_ascii_hexdigit) > 3 * (letters + digits);
    text.first().is_some_and(u8::is_ascii_alphabetic)
        && text.iter().all(plain)
        && !near_a_number
        && !near_a_key
}

fn is_sure_letter(byte: &u8) -> bool {
    byte.is_ascii_alphabetic() && !LOOK_ALIKES.contains(byte)
}

#[cfg(test)]
mod tests {
    use super::{PATH_WORDS, Texts, is_header, is_plain_word};

    /// A column of paths has a header only by a word that it is called, with nothing beside it.
    #[test]
    fn headers_of_paths() {
        let is = |text: &str| is_header(Texts::Paths, text.as_bytes());
        for word in PATH_WORDS {
            assert!(is(word) && is(&word.to_uppercase()), "{word}");
            for beside in [" ", ".", "/", "\\", "x", "\"", "\0"] {
                assert!(!is(&format!("{word}{beside}")), "{word}{beside}");
                assert!(!is(&format!("{beside}{word}")), "{beside}{word}");
            }
        }
        assert!(!is("") && !is("FileDataID") && !is("Interface"));
    }

    #[test]
    fn headers() {
        for text in [
            "FileDataID",
            "file_number",
            "ckey",
            "encoding key",
            "Key",
            "id",
            "ID",
            "EKey",
            "fdid",
            "name",
            "md5 of it",
            "file-number.1",
            "x",
        ] {
            assert!(is_plain_word(text.as_bytes()), "{text}");
        }
    }

    #[test]
    fn rows() {
        let key = "ae5da97c10327bc86eb33511688654da";
        let short = &key[1..];
        let spoilt = key.replace("10327", "ef_ga").replace("688654", "abcdef");
        for text in [
            "O417",
            "417 ",
            "41 7",
            "l349477",
            "O41",
            "l7",
            "O",
            "IO",
            "deadbeef",
            "face",
            "cafe",
            "E5",
            "a1b2",
            "0x1A1",
            "=417",
            "\"id\"",
            "Schl\u{fc}ssel",
            "",
            " id",
            key,
            short,
            &spoilt,
            "decode",
            "00417",
            "id,key",
            "id;key",
        ] {
            assert!(!is_plain_word(text.as_bytes()), "{text}");
        }
    }
}
