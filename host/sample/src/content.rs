//! The files of the sample build, and their envelopes.

use second::envelope::{PLAIN, with_table, without_table};
use second::name_hash::name_hash;

use crate::digest;

/// The languages of the sample build.
#[derive(Clone, Copy, Debug, PartialEq, Eq)]
pub enum Locale {
    EnUs,
    DeDe,
}

impl Locale {
    pub fn name(self) -> &'static str {
        match self {
            Locale::EnUs => "enUS",
            Locale::DeDe => "deDE",
        }
    }

    /// Its bit in the locale flags of a root file.
    pub fn flag(self) -> u32 {
        match self {
            Locale::EnUs => 0x2,
            Locale::DeDe => 0x20,
        }
    }
}

/// The file that the root files name and the encoding file does not.
pub const UNKNOWN: u32 = 9001;

/// The file that the encoding file names and no index does: it is stored by itself.
pub const LOOSE: u32 = 9002;

/// The file that has two encoding keys.
pub const TWICE: u32 = 418;

/// The files with the highest numbers, each the only one of its kind.
pub const BLOOD: u32 = i32::MAX as u32;
const BONES: u32 = u32::MAX;

/// The kinds of files: the first number of each, and what stands in paths before and after the two
/// digits that count from it.
const KINDS: [(u32, &str, &str); 6] = [
    (417, r"Interface\Icons\INV_Sample_", ".blp"),
    (UNKNOWN, r"Creature\Sample\Sample_", ".m2"),
    (53_183, r"Sound\Music\Sample\Track_", ".mp3"),
    (1_349_477, r"World\Maps\Sample\Sample_30_", ".adt"),
    (BLOOD, r"Spells\Sample_Blood_", ".m2"),
    (BONES, r"Spells\Sample_Bones_", ".m2"),
];

/// A file of the sample build.
#[derive(Clone, Debug)]
pub struct Content {
    pub number: u32,
    pub locale: Locale,
    pub bytes: Vec<u8>,
    /// The envelope of the first encoding key.
    pub envelope: Vec<u8>,
}

impl Content {
    fn new(number: u32, locale: Locale) -> Self {
        let line = format!("File {number} of the sample build, {}.\n", locale.name());
        let bytes = line.repeat(1 + number as usize % 4).into_bytes();
        let envelope = match number % 3 {
            0 => chunked(&bytes, 40),
            _ => single(&bytes),
        };
        Self {
            number,
            locale,
            bytes,
            envelope,
        }
    }

    /// The path: files of one number have one path.
    pub fn path(&self) -> String {
        let mut kinds = KINDS.iter().rev();
        let kind = kinds.find(|(first, ..)| *first <= self.number);
        let (first, before, after) = kind.expect("no number is below the first");
        format!("{before}{:02}{after}", self.number - first + 1)
    }

    /// The name hash of the path.
    pub fn name_hash(&self) -> [u8; 8] {
        let hash = name_hash(self.path().as_bytes());
        hash.expect("the path is short").to_le_bytes()
    }

    /// The content key.
    pub fn key(&self) -> [u8; 16] {
        digest(&self.bytes)
    }

    /// The first encoding key.
    pub fn encoding_key(&self) -> [u8; 16] {
        envelope_key(&self.envelope)
    }

    /// The envelope of the second encoding key, where there is one.
    pub fn second_envelope(&self) -> Option<Vec<u8>> {
        let twice = self.number == TWICE && self.locale == Locale::EnUs;
        twice.then(|| chunked(&self.bytes, 20))
    }

    /// Whether the encoding file names it.
    pub fn is_known(&self) -> bool {
        self.number != UNKNOWN
    }

    /// Whether it is stored by itself.
    pub fn is_loose(&self) -> bool {
        self.number == LOOSE
    }
}

/// All files: those in English, with the highest numbers last, then those in German.
pub fn contents() -> Vec<Content> {
    let english = (417..437)
        .chain([UNKNOWN, LOOSE])
        .chain(53_183..53_203)
        .chain(1_349_477..1_349_487)
        .chain([BLOOD, BONES])
        .map(|number| Content::new(number, Locale::EnUs));
    let german = (417..427).map(|number| Content::new(number, Locale::DeDe));
    english.chain(german).collect()
}

/// The envelope of one chunk, without a chunk table.
pub fn single(content: &[u8]) -> Vec<u8> {
    without_table(&plain(content))
}

/// The envelope of chunks of this length, with a chunk table.
pub fn chunked(content: &[u8], length: usize) -> Vec<u8> {
    let chunks: Vec<_> = content.chunks(length).map(plain).collect();
    with_table(&chunks)
}

fn plain(content: &[u8]) -> Vec<u8> {
    [&[PLAIN], content].concat()
}

/// The key of an envelope.
pub fn envelope_key(envelope: &[u8]) -> [u8; 16] {
    second::envelope::envelope_key(envelope).expect("it is an envelope")
}
