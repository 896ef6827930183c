//! The full check.

use super::entry::OverPageEnd;
use super::{Encoding, Page, Table};
use crate::md5;
use crate::refusal::{self, Refusal};

/// What is judged of an entry of either kind.
struct Judged<'a> {
    key: &'a [u8],
    /// Whether the table has a spec of its number; true where it has none.
    spec_known: bool,
}

/// The full check; refuses with 30 to 33, then page by page 34, 35, 37, 36, 38, first the content
/// pages and then the encoding pages.
pub fn check(file: &[u8]) -> Result<(), Refusal> {
    let encoding = Encoding::open(file)?;
    check_pages(&encoding.content, |page| {
        encoding.content_entries(page).map(|entry| {
            Ok(Judged {
                key: entry?.key,
                spec_known: true,
            })
        })
    })?;
    let specs = encoding.spec_count();
    check_pages(&encoding.encoding, |page| {
        encoding.encoding_entries(page).map(|entry| {
            Ok(Judged {
                key: entry.key,
                spec_known: (entry.spec_number as usize) < specs,
            })
        })
    })
}

/// The pages of one kind, of which this gives the entries.
fn check_pages<'a, E>(table: &Table<'a>, entries: impl Fn(Page<'a>) -> E) -> Result<(), Refusal>
where
    E: Iterator<Item = Result<Judged<'a>, OverPageEnd>>,
{
    let mut before: Option<&[u8]> = None;
    for page in table.pages() {
        if md5::digest(page.bytes)? != page.hash {
            return Err(refusal::encoding_page_hash(page.number));
        }
        let (mut first, mut rising, mut specs_known) = (None, true, true);
        for entry in entries(page) {
            let entry = entry.map_err(|OverPageEnd| refusal::entry_over_page_end(page.number))?;
            first = first.or(Some(entry.key));
            rising &= before.is_none_or(|before| before < entry.key);
            specs_known &= entry.spec_known;
            before = Some(entry.key);
        }
        if first != Some(page.first_key) {
            return Err(refusal::first_key(page.number));
        }
        if !rising {
            return Err(refusal::encoding_order(page.number));
        }
        if !specs_known {
            return Err(refusal::SPEC_NUMBER);
        }
    }
    Ok(())
}
