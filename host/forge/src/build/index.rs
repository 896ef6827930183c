//! Lists and archive indexes.

use second::index::{FOOTER, PAGE, Settings, write};

use super::keys;
use crate::damage::Place;
use crate::random::Random;

/// Where the fields of a footer stand in it, and how many bytes they have.
const FOOTER_FIELDS: [(usize, usize); 10] = [
    (0, 8),
    (8, 1),
    (9, 2),
    (11, 1),
    (12, 1),
    (13, 1),
    (14, 1),
    (15, 1),
    (16, 4),
    (20, 8),
];

/// How many bytes of a page's hash are stored.
const HASH: usize = 8;

/// A list and its settings.
#[derive(Clone, Debug)]
pub struct List {
    /// The settings.
    pub settings: Settings,
    /// How many entries it has.
    pub entries: usize,
    /// Their keys, one after the other.
    pub keys: Vec<u8>,
    /// Their bytes.
    pub bytes: Vec<u8>,
}

impl List {
    /// A list with any settings, mostly of one or two pages.
    pub fn new(random: &mut Random) -> Self {
        let settings = Settings {
            version: random.within(0..=1) as u32,
            offset_width: random.within(4..=6) as u32,
            key_length: keys::length(random).into(),
        };
        Self::with(random, settings)
    }

    /// A list with these settings.
    pub fn with(random: &mut Random, settings: Settings) -> Self {
        let entries = entry_count(random, settings);
        let keys = keys::rising(random, settings.key_len(), entries);
        let mut bytes = Vec::with_capacity(entries * settings.entry_len());
        for key in keys.chunks_exact(settings.key_len()) {
            bytes.extend_from_slice(key);
            let rest = settings.entry_len() - key.len();
            bytes.extend_from_slice(&random.bytes(rest));
        }
        Self {
            settings,
            entries,
            keys,
            bytes,
        }
    }

    /// The key or the whole of an entry.
    pub fn place(&self, random: &mut Random) -> Place {
        let step = self.settings.entry_len();
        let number = random.within(0..=self.entries);
        Place {
            at: number * step,
            length: random.pick(&[self.settings.key_len(), step]),
            step,
        }
    }
}

/// Mostly few entries, or about as many as pages hold.
fn entry_count(random: &mut Random, settings: Settings) -> usize {
    let full = settings.entries_per_page();
    let count = match random.within(0..=19) {
        0 => 0,
        1..=8 => random.within(1..=12),
        9..=11 => random.pick(&[full - 1, full, full + 1]),
        12 => random.pick(&[2 * full, 2 * full + 1, 3 * full]),
        13 => random.within(2 * full..=4 * full),
        _ => random.within(1..=full),
    };
    let count = if random.one_in(500) { 15 * full } else { count };
    count.min(keys::most(settings.key_len()))
}

/// An index and what it was made of.
#[derive(Clone, Debug)]
pub struct Index {
    /// Its entries and settings.
    pub list: List,
    /// The file.
    pub file: Vec<u8>,
}

impl Index {
    /// The index of a list.
    pub fn of(list: List) -> Self {
        let mut file = vec![0; list.settings.file_len(list.entries)];
        write(list.settings, &list.bytes, &mut file).expect("the list may be written");
        Self { list, file }
    }

    /// The footer.
    pub fn footer(&self) -> &[u8; FOOTER] {
        self.file.last_chunk().expect("an index ends in a footer")
    }

    /// A field of the footer, or a key, an entry, a hash or padding.
    pub fn place(&self, random: &mut Random) -> Place {
        let settings = self.list.settings;
        let pages = settings.pages(self.list.entries);
        let page = random.within(0..=pages.max(1) - 1);
        let key_length = settings.key_len();
        let after_pages = pages * PAGE;
        match random.within(0..=9) {
            0 | 1 => self.footer_field(random),
            2 => Place {
                at: after_pages + page * key_length,
                length: key_length,
                step: key_length,
            },
            3 => Place::alone(after_pages + pages * key_length + page * HASH, HASH),
            4 | 5 => Place::alone(self.padding(random, page), 1),
            _ => self.entry(random),
        }
    }

    fn footer_field(&self, random: &mut Random) -> Place {
        let (at, length) = random.pick(&FOOTER_FIELDS);
        Place::alone(self.file.len() - FOOTER + at, length)
    }

    /// A byte of the padding of a page, or its last byte where it has none.
    fn padding(&self, random: &mut Random, page: usize) -> usize {
        let settings = self.list.settings;
        let full = settings.entries_per_page();
        let entries = self.list.entries.saturating_sub(page * full).min(full);
        let first = (entries * settings.entry_len()).min(PAGE - 1);
        page * PAGE + random.within(first..=PAGE - 1)
    }

    /// The key or the whole of an entry, on its page.
    fn entry(&self, random: &mut Random) -> Place {
        let settings = self.list.settings;
        let full = settings.entries_per_page();
        let last = self.list.entries.max(1) - 1;
        let any = random.within(0..=last);
        let number = random.pick(&[any, any, any / full * full, last]);
        let step = settings.entry_len();
        Place {
            at: number / full * PAGE + number % full * step,
            length: random.pick(&[settings.key_len(), settings.key_len(), step]),
            step,
        }
    }
}
