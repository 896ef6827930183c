//! What refusals mean for a person, and what to do.

use std::ffi::OsStr;
use std::ops::{Range, RangeInclusive};

use dwarnizza::index::{IndexEntry, Page, Slot, UncheckedIndex};
use dwarnizza::{Index, Reason, Refusal, Subject};

use crate::status::Failure;

/// What root files are called, which have a magic or none.
pub const ROOT: &str = "a root file";

/// Kinds of files by their first bytes.
const KINDS: [(&[u8], &str); 10] = [
    (b"BLTE", "a BLTE envelope"),
    (b"EN\x01", "an encoding file"),
    (b"MFST", ROOT),
    (b"TSFM", ROOT),
    (b"\x1f\x8b\x08", "a gzip file"),
    (b"PK\x03\x04", "a ZIP file"),
    (b"IN\x01", "an install file"),
    (b"DL\x01", "a download file"),
    (b"DL\x02", "a download file"),
    (b"DL\x03", "a download file"),
];

/// Kinds of text by their first character: what is no text may begin with it too.
const KINDS_OF_TEXT: [(&[u8], &str); 2] = [
    (
        b"<",
        "a page of HTML or XML, such as a server sends in place of a file",
    ),
    (b"# ", "a configuration file"),
];

/// How many bytes the footer of an index has.
const FOOTER: usize = 28;

/// The fields of the footer of an archive index: which reason refuses each, and what it may be.
const FIELDS: [(Reason, &str, RangeInclusive<u8>); 7] = [
    (Reason::FooterVersion, "version", 0..=1),
    (Reason::FooterReserved, "reserved byte", 0..=0),
    (Reason::FooterPageSize, "page size in KB", 4..=4),
    (Reason::FooterOffsetWidth, "offset width", 4..=6),
    (Reason::FooterSizeWidth, "size width", 4..=4),
    (Reason::FooterKeyLength, "key length", 1..=16),
    (Reason::FooterHashLength, "hash length", 8..=8),
];

/// How many bytes must be those of text before a file is taken for text.
const TEXT: usize = 32;

/// What a file is by its first bytes, where they tell.
pub fn kind(first: &[u8]) -> Option<&'static str> {
    if first.is_empty() {
        return Some("an empty file");
    }
    let mut start = first.iter().take(TEXT);
    let is_text = start.all(|byte| byte.is_ascii_graphic() || byte.is_ascii_whitespace());
    let of_text = KINDS_OF_TEXT.iter().filter(|_| is_text);
    let mut kinds = KINDS.iter().chain(of_text);
    let kind = kinds.find(|(magic, _)| first.starts_with(magic));
    kind.map(|(_, kind)| *kind)
}

/// What to do about a file that is not of the kind that was wanted, by its first bytes.
pub fn kind_help(first: &[u8], wanted: &str) -> String {
    match kind(first) {
        Some(envelope @ "a BLTE envelope") => format!(
            "by its first bytes it is {envelope} and not {wanted} itself: `dwarnizza blte open` takes it out"
        ),
        Some(kind) => format!("by its first bytes it is {kind} and not {wanted}"),
        None => {
            format!("by its first bytes it is not {wanted}: cut in download, or of another kind?")
        }
    }
}

/// An index of these bytes is refused.
pub fn index(name: &OsStr, refused: Refusal, bytes: &[u8]) -> Failure {
    let unchecked = Index::unchecked(bytes);
    let help = match refused.reason.subject() {
        Subject::IndexOpening => footer_help(refused, bytes, unchecked, bytes.len() as u64),
        Subject::IndexPages => match place_in(unchecked, refused) {
            Some(place) => format!("{place}: fetch the file again"),
            None => String::new(),
        },
        // These name no part of an index.
        Subject::Call
        | Subject::Envelope
        | Subject::EncodingHeader
        | Subject::Encoding
        | Subject::Root => String::new(),
    };
    Failure::refused(name, refused, &help)
}

/// Judges an index by its footer and its length: the opening checks.
pub fn judge_footer(name: &OsStr, first: &[u8], last: &[u8], length: u64) -> Result<(), Failure> {
    let last = Index::unchecked(last);
    let refused = match last.footer() {
        Ok(footer) if footer.file_length == length => return Ok(()),
        Ok(_) => Refusal::new(Reason::IndexLength, 0),
        Err(refused) => refused,
    };
    let help = footer_help(refused, first, last, length);
    Err(Failure::refused(name, refused, &help))
}

/// What a refusal by the opening checks means, by the first and the last bytes of a file of this
/// length.
fn footer_help(refused: Refusal, first: &[u8], last: UncheckedIndex<'_>, length: u64) -> String {
    match (refused.reason, kind(first)) {
        (Reason::EntryCount, _) => String::new(),
        (Reason::IndexLength, _) => match last.footer() {
            Ok(footer) => format!(
                "by its footer it has {} bytes, and {length} were found: cut or joined in \
                 download? Fetch it again",
                footer.file_length
            ),
            Err(_) => String::new(),
        },
        _ if last.is_loose() => {
            "by its footer it is an index of loose files or of patches, and no archive index"
                .to_string()
        }
        (_, Some(kind)) => format!("by its first bytes it is {kind}, and no archive index"),
        (Reason::IndexShort, None) => {
            format!("it has {length} bytes: cut in download? Fetch it again")
        }
        (Reason::FooterHash, None) => {
            "its footer is damaged, or it is cut in download: fetch it again".to_string()
        }
        (_, None) => match field_words(refused, last) {
            Some(field) => format!(
                "{field}, so its last bytes are no footer of an archive index: cut in download, \
                 or a file of another kind? Compare its length with the server's"
            ),
            None => String::new(),
        },
    }
}

/// Which field of a footer is refused, what it is, and what it must be.
fn field_words(refused: Refusal, last: UncheckedIndex<'_>) -> Option<String> {
    let (_, footer) = last.bytes().split_last_chunk::<FOOTER>()?;
    let value = footer.get(usize::try_from(refused.place).ok()?)?;
    let mut fields = FIELDS.iter();
    let (_, name, allowed) = fields.find(|(reason, ..)| *reason == refused.reason)?;
    let (least, greatest) = (allowed.start(), allowed.end());
    Some(match greatest - least {
        0 => format!("{name} is {value}, must be {least}"),
        1 => format!("{name} is {value}, must be {least} or {greatest}"),
        _ => format!("{name} is {value}, must be {least} to {greatest}"),
    })
}

/// Where in the file a refusal of its pages stands.
fn place_in(index: UncheckedIndex<'_>, refused: Refusal) -> Option<String> {
    if refused.reason.place_words() == "entry" {
        let entry = numbered(index, refused.place)?;
        let key = bytes(&(entry.place..entry.place + entry.key.len()));
        return Some(format!("its key stands at {key}"));
    }
    let page = Page(u32::try_from(refused.place).ok()?);
    let parts = index.page(page).ok()??;
    let page = format!("that page stands at {}", bytes(&parts.page));
    Some(match refused.reason {
        Reason::IndexPageHash => format!("{page}, its hash at {}", bytes(&parts.hash)),
        Reason::LastKey => format!("{page}, its stored last key at {}", bytes(&parts.last_key)),
        _ => page,
    })
}

/// The entry with this number, counted from 0 through all pages.
fn numbered(index: UncheckedIndex<'_>, number: u64) -> Option<IndexEntry<'_>> {
    let mut left = number;
    for page in index.summary().ok()?.page_numbers() {
        let entries = index.page(page).ok()??.entries as u64;
        if left < entries {
            let slot = Slot(u32::try_from(left).ok()?);
            return index.entry_at(page, slot).ok()?;
        }
        left -= entries;
    }
    None
}

/// A range of bytes in words.
fn bytes(range: &Range<usize>) -> String {
    format!("bytes {} to {}", range.start, range.end - 1)
}

#[cfg(test)]
mod tests {
    use super::*;

    /// Every value of every field: the table allows what the library allows, and the words name
    /// the field and tell the value.
    #[test]
    fn words_of_every_field() {
        let good = [1, 0, 0, 4, 4, 4, 16, 8];
        let rows = [0, 1, 1, 2, 3, 4, 5, 6].map(|row: usize| &FIELDS[row]);
        for (at, (reason, name, allowed)) in rows.into_iter().enumerate() {
            for value in 0..=u8::MAX {
                let mut footer = [0; FOOTER];
                footer[8..16].copy_from_slice(&good);
                footer[8 + at] = value;
                let last = Index::unchecked(&footer);
                let refused = last.footer().unwrap_err();
                let words = field_words(refused, last);
                if allowed.contains(&value) {
                    assert_eq!(refused.reason, Reason::FooterHash);
                    assert_eq!(words, None);
                } else {
                    assert_eq!((refused.reason, refused.place), (*reason, 8 + at as u64));
                    let start = format!("{name} is {value}, must be ");
                    assert!(words.is_some_and(|words| words.starts_with(&start)));
                }
            }
        }
    }
}
