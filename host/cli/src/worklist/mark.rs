//! The mark at the start of a text that tells its encoding.

/// Encodings that are not read, by their marks. That of UTF-32 begins as one of UTF-16 does.
const OTHERS: [(&[u8], &str); 4] = [
    (b"\xff\xfe\0\0", "UTF-32, little-endian"),
    (b"\0\0\xfe\xff", "UTF-32, big-endian"),
    (b"\xff\xfe", "UTF-16, little-endian"),
    (b"\xfe\xff", "UTF-16, big-endian"),
];

/// The byte-order mark of UTF-8.
const UTF_8: &[u8] = b"\xef\xbb\xbf";

/// How many bytes of the text are a mark that is skipped, or the name of an encoding that is not
/// read.
pub fn skipped(text: &[u8]) -> Result<usize, &'static str> {
    let mut others = OTHERS.iter();
    match others.find(|(mark, _)| text.starts_with(mark)) {
        Some((_, name)) => Err(name),
        None if text.starts_with(UTF_8) => Ok(UTF_8.len()),
        None => Ok(0),
    }
}
