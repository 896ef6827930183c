//! Repair of encoding files, by what their header says now.

use second::encoding::{HEADER, Header, TableSizes};

use super::{LONGEST, digest};
use crate::random::Random;

/// Where the first content key stands in a page, and the first encoding key.
const FIRST_CONTENT_KEY: usize = 6;
const FIRST_ENCODING_KEY: usize = 0;

/// Repairs most of: the length, the first keys and the page hashes.
pub fn encoding(file: &mut Vec<u8>, random: &mut Random) {
    if random.one_in(8) {
        return;
    }
    let Ok((header, _)) = Header::read(file) else {
        return;
    };
    let Header {
        content,
        encoding,
        spec_size,
    } = header;
    let content_table = HEADER + spec_size as usize;
    let encoding_table = content_table + content.index_len() + content.pages_len();
    let end = encoding_table + encoding.index_len() + encoding.pages_len();
    if file.len() < end && end < LONGEST && random.one_in(2) {
        file.resize(end, 0);
    }
    let Some(tables) = file.get_mut(content_table..end) else {
        return;
    };
    let (of_content, of_encoding) = tables.split_at_mut(encoding_table - content_table);
    repair_table(of_content, content, FIRST_CONTENT_KEY, random);
    repair_table(of_encoding, encoding, FIRST_ENCODING_KEY, random);
}

/// The rows of an index, each by the page that it is of.
fn repair_table(table: &mut [u8], sizes: TableSizes, first_key: usize, random: &mut Random) {
    let (index, pages) = table.split_at_mut(sizes.index_len());
    let rows = index.chunks_exact_mut(sizes.index_entry_len());
    for (row, page) in rows.zip(pages.chunks_exact(sizes.page_len())) {
        let (key, hash) = row.split_at_mut(sizes.key_len());
        if random.one_in(3) {
            key.copy_from_slice(&page[first_key..][..key.len()]);
        }
        if !random.one_in(20) {
            hash.copy_from_slice(&digest(page));
        }
    }
}
