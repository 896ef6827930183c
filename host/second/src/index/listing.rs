//! The listing.

use std::fmt::{self, Write};

use super::{Index, SIZE_WIDTH, Settings, check};
use crate::number::big_endian;
use crate::refusal::{self, Refusal};

/// The most bytes of input that are listed.
pub const MOST_LISTED: usize = 65_536;

/// The listing of an index. Refused with 70, then as the full check refuses.
pub fn listing(input: &[u8]) -> Result<String, Refusal> {
    if input.len() > MOST_LISTED {
        return Err(refusal::LISTING_INPUT);
    }
    check(input).map(|index| lines(&index))
}

/// What the listing program prints: the listing, or the line of its refusal.
pub fn printed(input: &[u8]) -> String {
    listing(input).unwrap_or_else(refusal_line)
}

/// Of the listing's refusals, 6 to 9 and 102 to 108 have a place.
fn refusal_line(Refusal { number, place }: Refusal) -> String {
    match number {
        6..=9 | 102..=108 => format!("refused {number} at {place}\n"),
        _ => format!("refused {number}\n"),
    }
}

fn lines(index: &Index) -> String {
    let settings = index.settings();
    let mut lines = format!(
        "index key={} offset={} entries={} pages={}\n",
        settings.key_length,
        settings.offset_width,
        index.entries(),
        index.pages()
    );
    for page in 0..index.pages() {
        let (entries, _) = index.split_page(page);
        for entry in entries.chunks_exact(settings.entry_len()) {
            push_entry(settings, entry, &mut lines).expect("a string takes every line");
        }
    }
    lines
}

/// Key, size, archive number and offset; a dash where there is no archive number.
fn push_entry(settings: Settings, entry: &[u8], lines: &mut String) -> fmt::Result {
    let (key, rest) = entry.split_at(settings.key_len());
    let (size, location) = rest.split_at(SIZE_WIDTH);
    for byte in key {
        write!(lines, "{byte:02x}")?;
    }
    write!(lines, " {} ", big_endian(size))?;
    if settings.offset_width == 6 {
        let (archive, offset) = location.split_at(2);
        writeln!(lines, "{} {}", big_endian(archive), big_endian(offset))
    } else {
        writeln!(lines, "- {}", big_endian(location))
    }
}
