//! Refusals.

/// A refusal: its number by document 01 or a later request, and its place (0 where none is named).
#[derive(Clone, Copy, Debug, PartialEq, Eq)]
pub struct Refusal {
    /// What was wrong.
    pub number: u32,
    /// Where.
    pub place: u64,
}

const fn refusal(number: u32) -> Refusal {
    Refusal { number, place: 0 }
}

const fn refusal_at(number: u32, place: usize) -> Refusal {
    Refusal {
        number,
        place: place as u64,
    }
}

/// Index under 28 bytes.
pub const INDEX_TOO_SHORT: Refusal = refusal(1);

/// The footer's version is neither 0 nor 1.
pub const FOOTER_VERSION: Refusal = refusal_at(102, 8);

/// The first of the footer's reserved bytes is not 0.
pub const FOOTER_RESERVED: Refusal = refusal_at(103, 9);

/// Of the two only the second is not 0.
pub const FOOTER_SECOND_RESERVED: Refusal = refusal_at(103, 10);

/// The footer's page size is not 4 KB.
pub const FOOTER_PAGE_SIZE: Refusal = refusal_at(104, 11);

/// The footer's offset width is not 4, 5 or 6.
pub const FOOTER_OFFSET_WIDTH: Refusal = refusal_at(105, 12);

/// The footer's size width is not 4.
pub const FOOTER_SIZE_WIDTH: Refusal = refusal_at(106, 13);

/// The footer's key length is not 1 to 16.
pub const FOOTER_KEY_LENGTH: Refusal = refusal_at(107, 14);

/// The footer's hash length is not 8.
pub const FOOTER_HASH_LENGTH: Refusal = refusal_at(108, 15);

/// Footer hash wrong.
pub const FOOTER_HASH: Refusal = refusal(3);

/// More than 8,388,608 entries.
pub const TOO_MANY_ENTRIES: Refusal = refusal(4);

/// File length wrong.
pub const FILE_LENGTH: Refusal = refusal(5);

/// Page hash wrong.
pub fn page_hash(page: usize) -> Refusal {
    refusal_at(6, page)
}

/// Padding not zero.
pub fn padding(page: usize) -> Refusal {
    refusal_at(7, page)
}

/// Key not above the one before.
pub fn order(entry: usize) -> Refusal {
    refusal_at(8, entry)
}

/// Stored last key wrong.
pub fn last_key(page: usize) -> Refusal {
    refusal_at(9, page)
}

/// Sought key not K bytes.
pub const SOUGHT_KEY_LENGTH: Refusal = refusal(10);

/// Settings wrong.
pub const SETTINGS: Refusal = refusal(11);

/// List not whole entries.
pub const LIST_NOT_WHOLE: Refusal = refusal(12);

/// Output shorter than the file or list to be written.
pub const OUTPUT_TOO_SHORT: Refusal = refusal(13);

/// Under 8 bytes, or not BLTE.
pub const NOT_AN_ENVELOPE: Refusal = refusal(20);

/// Header size, flags or count wrong, no chunk, or header past the end.
pub const ENVELOPE_HEADER: Refusal = refusal(21);

/// An empty chunk, or sizes not adding up to the rest.
pub const CHUNK_SIZES: Refusal = refusal(22);

/// Chunk hash wrong.
pub fn chunk_hash(chunk: usize) -> Refusal {
    refusal_at(23, chunk)
}

/// Mode not N.
pub fn chunk_mode(chunk: usize) -> Refusal {
    refusal_at(24, chunk)
}

/// Decoded size not encoded size less 1.
pub fn decoded_size(chunk: usize) -> Refusal {
    refusal_at(25, chunk)
}

/// Output shorter than the content.
pub const CONTENT_OUTPUT_TOO_SHORT: Refusal = refusal(26);

/// Envelope key not the one given.
pub const ENVELOPE_KEY: Refusal = refusal(27);

/// Under 22 bytes, or not EN.
pub const NOT_AN_ENCODING_FILE: Refusal = refusal(30);

/// A header field of an encoding file wrong.
pub const ENCODING_HEADER: Refusal = refusal(31);

/// Parts of an encoding file run past its end.
pub const PARTS_PAST_END: Refusal = refusal(32);

/// Last spec not closed.
pub const LAST_SPEC: Refusal = refusal(33);

/// Page hash of an encoding file wrong.
pub fn encoding_page_hash(page: usize) -> Refusal {
    refusal_at(34, page)
}

/// Entry over the page's end.
pub fn entry_over_page_end(page: usize) -> Refusal {
    refusal_at(35, page)
}

/// Key of an encoding file not above the one before.
pub fn encoding_order(page: usize) -> Refusal {
    refusal_at(36, page)
}

/// Stored first key wrong, or a page without an entry.
pub fn first_key(page: usize) -> Refusal {
    refusal_at(37, page)
}

/// Spec number past the table.
pub const SPEC_NUMBER: Refusal = refusal(38);

/// Sought key not of the encoding file's key size.
pub const ENCODING_KEY_LENGTH: Refusal = refusal(39);

/// Block of a root file cut.
pub fn block_cut(offset: usize) -> Refusal {
    refusal_at(40, offset)
}

/// Id outside its range.
pub fn id_range(offset: usize) -> Refusal {
    refusal_at(41, offset)
}

/// Header size of a root file from 16 to 19.
pub const ROOT_HEADER_SIZE: Refusal = refusal(42);

/// Header of a root file cut.
pub const ROOT_HEADER_CUT: Refusal = refusal(43);

/// Root version 4.
pub const ROOT_VERSION: Refusal = refusal(44);

/// More than 2^48 bytes hashed.
pub const TOO_MUCH_HASHED: Refusal = refusal(50);

/// Key text not 2K characters.
pub const KEY_TEXT_LENGTH: Refusal = refusal(60);

/// Not a hex digit.
pub fn hex_digit(digit: usize) -> Refusal {
    refusal_at(61, digit)
}

/// Listing input above 65,536 bytes.
pub const LISTING_INPUT: Refusal = refusal(70);

/// Path above 1,024 bytes.
pub const PATH_LENGTH: Refusal = refusal(110);

/// Id below the one before.
pub fn list_falls(id: usize) -> Refusal {
    refusal_at(161, id)
}
