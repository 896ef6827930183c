//! The root files and the encoding file of the sample build.

use second::encoding::{ContentEntry, EncodingEntry, Parts, TableParts, paged};
use second::root::{BlockParts, Header, NO_NAME_HASHES, Record};

use crate::content::{Content, Locale, envelope_key};
use crate::digest;

/// The content flag of the files with the highest numbers.
const LOW_VIOLENCE: u32 = 0x80;

/// How many KB a page of the encoding file has.
const PAGE_KB: u16 = 1;

/// The specs, closed each: one plain chunk, and several.
const SPECS: &[u8] = b"n\0b:{*=n}\0";

/// The root file in the layout without a magic.
pub fn root_v1(contents: &[Content]) -> Vec<u8> {
    second::root::write(None, &blocks(contents))
}

/// The root file with a magic and a short header, which counts all files and those with a name
/// hash.
pub fn root_short(contents: &[Content]) -> Vec<u8> {
    let named = contents
        .iter()
        .filter(|content| content.locale == Locale::EnUs);
    let header = Header {
        magic: *b"MFST",
        a: contents.len() as u32,
        b: named.count() as u32,
    };
    second::root::write(Some(header), &blocks(contents))
}

/// The root file with a magic and a long header, of version 2.
pub fn root_v2(contents: &[Content]) -> Vec<u8> {
    let header = Header {
        magic: *b"TSFM",
        a: 24,
        b: 2,
    };
    second::root::write(Some(header), &blocks(contents))
}

/// Three blocks: English, English with the highest numbers, German. With a magic the last has no
/// name hashes.
fn blocks(contents: &[Content]) -> Vec<BlockParts> {
    let is_high = |content: &Content| content.number >= i32::MAX as u32;
    let block = |locale: Locale, high: bool, flags: u32| {
        let counted = contents
            .iter()
            .filter(move |content| content.locale == locale && is_high(content) == high);
        BlockParts {
            locale: locale.flag(),
            content: flags,
            unknown: [0; 5],
            records: records(counted),
        }
    };
    vec![
        block(Locale::EnUs, false, 0),
        block(Locale::EnUs, true, LOW_VIOLENCE),
        block(Locale::DeDe, false, NO_NAME_HASHES),
    ]
}

/// The records of files whose numbers rise.
fn records<'a>(contents: impl Iterator<Item = &'a Content>) -> Vec<Record> {
    let mut next = 0;
    contents
        .map(|content| {
            let number = i64::from(content.number);
            let delta = i32::try_from(number - next).expect("the next number is near");
            next = number + 1;
            Record {
                delta,
                key: content.key(),
                name_hash: content.name_hash(),
            }
        })
        .collect()
}

/// The encoding file of these files, and of the root files with their envelopes.
pub fn encoding(contents: &[Content], roots: &[(&[u8], &[u8])]) -> Vec<u8> {
    let mut encoded: Vec<Encoded> = contents
        .iter()
        .filter(|content| content.is_known())
        .map(|content| {
            let envelopes = [Some(content.envelope.clone()), content.second_envelope()];
            Encoded::new(&content.bytes, envelopes.into_iter().flatten().collect())
        })
        .collect();
    encoded.extend(
        roots
            .iter()
            .map(|(root, envelope)| Encoded::new(root, vec![envelope.to_vec()])),
    );
    encoded.sort_by_key(|encoded| encoded.key);
    second::encoding::write(&Parts {
        specs: SPECS.to_vec(),
        content: table(encoded.iter().map(Encoded::content_entry)),
        encoding: table(encoding_entries(&encoded)),
        own_spec: b"b:{*=n}".to_vec(),
    })
}

/// A content and its envelopes.
struct Encoded {
    key: [u8; 16],
    size: usize,
    envelopes: Vec<Vec<u8>>,
}

impl Encoded {
    fn new(content: &[u8], envelopes: Vec<Vec<u8>>) -> Self {
        Self {
            key: digest(content),
            size: content.len(),
            envelopes,
        }
    }

    fn content_entry(&self) -> Vec<u8> {
        let keys: Vec<_> = self
            .envelopes
            .iter()
            .map(|envelope| envelope_key(envelope))
            .collect();
        ContentEntry {
            count: keys.len() as u8,
            size: self.size as u64,
            key: &self.key,
            encoding_keys: keys.as_flattened(),
        }
        .bytes()
    }
}

/// The entries of all envelopes, by their keys.
fn encoding_entries(encoded: &[Encoded]) -> impl Iterator<Item = Vec<u8>> {
    let mut envelopes: Vec<_> = encoded
        .iter()
        .flat_map(|encoded| &encoded.envelopes)
        .map(|envelope| (envelope_key(envelope), envelope))
        .collect();
    envelopes.sort();
    envelopes.into_iter().map(|(key, envelope)| {
        // An envelope without a chunk table has a header size of zero.
        let spec_number = u32::from(envelope[4..8] != [0; 4]);
        EncodingEntry {
            key: &key,
            spec_number,
            size: envelope.len() as u64,
        }
        .bytes()
    })
}

fn table(entries: impl Iterator<Item = Vec<u8>>) -> TableParts {
    TableParts {
        key_size: 16,
        page_kb: PAGE_KB,
        pages: paged(entries, PAGE_KB),
    }
}
