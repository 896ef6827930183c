//! The lookups by content key and by encoding key, the plain reading, and the spec with a number.

use super::Encoding;
use super::entry::{ContentEntry, EncodingEntry, OverPageEnd};
use crate::refusal::{self, Refusal};

/// The entry of a content key; refuses with 30 to 33, 39, 35.
pub fn find_content<'a>(file: &'a [u8], key: &[u8]) -> Result<Option<ContentEntry<'a>>, Refusal> {
    let encoding = Encoding::open(file)?;
    let Some(page) = encoding.content.page_for(key)? else {
        return Ok(None);
    };
    for entry in encoding.content_entries(page) {
        let entry = entry.map_err(|OverPageEnd| refusal::entry_over_page_end(page.number))?;
        if entry.key == key {
            return Ok(Some(entry));
        }
    }
    Ok(None)
}

/// The plain reading of a file that passes the full check: goes through all content entries to the
/// first whose key is the sought one.
pub fn plain_reading<'a>(file: &'a [u8], key: &[u8]) -> Result<Option<ContentEntry<'a>>, Refusal> {
    let encoding = Encoding::open(file)?;
    let mut entries = encoding
        .content
        .pages()
        .flat_map(|page| encoding.content_entries(page).map_while(Result::ok));
    Ok(entries.find(|entry| entry.key == key))
}

/// The entry of an encoding key, and its spec; refuses with 30 to 33, 39, 38.
pub fn find_encoding<'a>(
    file: &'a [u8],
    key: &[u8],
) -> Result<Option<(EncodingEntry<'a>, &'a [u8])>, Refusal> {
    let encoding = Encoding::open(file)?;
    let Some(page) = encoding.encoding.page_for(key)? else {
        return Ok(None);
    };
    encoding
        .encoding_entries(page)
        .find(|entry| entry.key == key)
        .map(|entry| Ok((entry, encoding.spec(entry.spec_number)?)))
        .transpose()
}

/// The spec of this number, without what closes it; refuses with 30 to 33, 38.
pub fn spec(file: &[u8], number: u32) -> Result<&[u8], Refusal> {
    Encoding::open(file)?.spec(number)
}
