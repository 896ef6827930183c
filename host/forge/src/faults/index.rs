//! Archive indexes.

use std::ops::Range;

use second::index::{FOOTER, PAGE, Settings};
use second::md5;

use super::flip;
use crate::random::Random;

/// Where the footer has the version, the first of the fields of one byte.
pub const VERSION: usize = 8;

/// Where it has the hash length, the last of them.
pub const HASH_LENGTH: usize = 15;

/// Where it has the number of entries.
pub const COUNT: Range<usize> = 16..20;

/// Where it has its own hash.
pub const FOOTER_HASH: Range<usize> = 20..28;

/// How many bytes of an MD5 are stored.
const HASH: usize = 8;

/// Version 1 with these.
pub const fn settings(key_length: u32, offset_width: u32) -> Settings {
    Settings {
        version: 1,
        offset_width,
        key_length,
    }
}

/// All key lengths with all offset widths.
pub fn all_settings() -> impl Iterator<Item = Settings> {
    (1..=16).flat_map(|key_length| (4..=6).map(move |width| settings(key_length, width)))
}

/// How many keys of this length there are, or a number that is enough here.
pub fn keys(settings: Settings) -> usize {
    1 << (8 * settings.key_len()).min(32)
}

/// A file with the layout that it was made by.
#[derive(Clone, Debug)]
pub struct IndexFile {
    /// Its settings.
    pub settings: Settings,
    /// How many entries it has.
    pub entries: usize,
    /// The file.
    pub bytes: Vec<u8>,
}

impl IndexFile {
    /// The file of a list. Its keys need not rise; all else is right.
    pub fn new(settings: Settings, list: &[u8]) -> Self {
        let entries = list.len() / settings.entry_len();
        let mut file = Self {
            settings,
            entries,
            bytes: vec![0; settings.file_len(entries)],
        };
        for (number, entry) in list.chunks(settings.entry_len()).enumerate() {
            file.entry(number).copy_from_slice(entry);
        }
        file.fix_last_keys();
        file.fix_page_hashes();
        let Settings {
            version,
            offset_width,
            key_length,
        } = settings;
        let fields = [version, 0, 0, 4, offset_width, 4, key_length, 8].map(|field| field as u8);
        file.footer()[VERSION..=HASH_LENGTH].copy_from_slice(&fields);
        file.set_count(entries as u32);
        file.fix_contents_hash();
        file
    }

    /// A good file of random entries.
    pub fn random(random: &mut Random, settings: Settings, entries: usize) -> Self {
        Self::new(settings, &random_list(random, settings, entries))
    }

    /// A good file of any settings, mostly of few pages.
    pub fn random_layout(random: &mut Random) -> Self {
        let (settings, entries) = random_layout(random);
        Self::random(random, settings, entries)
    }

    /// How many pages it has.
    pub fn pages(&self) -> usize {
        self.settings.pages(self.entries)
    }

    /// The page that an entry stands on.
    pub fn page_of(&self, entry: usize) -> usize {
        entry / self.settings.entries_per_page()
    }

    /// The number of a page's last entry.
    pub fn last_entry(&self, page: usize) -> usize {
        ((page + 1) * self.settings.entries_per_page()).min(self.entries) - 1
    }

    /// The bytes of a page.
    pub fn page(&mut self, page: usize) -> &mut [u8] {
        &mut self.bytes[page * PAGE..][..PAGE]
    }

    /// What stands after a page's entries; nothing where they fill the page.
    pub fn padding(&mut self, page: usize) -> &mut [u8] {
        let slots = self.last_entry(page) + 1 - page * self.settings.entries_per_page();
        let start = slots * self.settings.entry_len();
        &mut self.page(page)[start..]
    }

    /// The bytes of an entry.
    pub fn entry(&mut self, number: usize) -> &mut [u8] {
        let length = self.settings.entry_len();
        let slot = number % self.settings.entries_per_page();
        let page = self.page_of(number);
        &mut self.page(page)[slot * length..][..length]
    }

    /// The key of an entry.
    pub fn key(&mut self, number: usize) -> &mut [u8] {
        let length = self.settings.key_len();
        &mut self.entry(number)[..length]
    }

    /// The stored last key of a page.
    pub fn last_key(&mut self, page: usize) -> &mut [u8] {
        let length = self.settings.key_len();
        let start = self.pages() * PAGE + page * length;
        &mut self.bytes[start..][..length]
    }

    /// The stored hash of a page.
    pub fn page_hash(&mut self, page: usize) -> &mut [u8] {
        let start = self.pages() * (PAGE + self.settings.key_len()) + page * HASH;
        &mut self.bytes[start..][..HASH]
    }

    /// The footer.
    pub fn footer(&mut self) -> &mut [u8] {
        let start = self.bytes.len() - FOOTER;
        &mut self.bytes[start..]
    }

    /// Puts another count into the footer, and the right footer hash.
    pub fn set_count(&mut self, count: u32) {
        self.footer()[COUNT].copy_from_slice(&count.to_le_bytes());
        self.fix_footer_hash();
    }

    /// Stores the last key of a page.
    pub fn fix_last_key(&mut self, page: usize) {
        let key = self.key(self.last_entry(page)).to_vec();
        self.last_key(page).copy_from_slice(&key);
    }

    /// Stores the hash of a page.
    pub fn fix_page_hash(&mut self, page: usize) {
        let hash = first_8(self.page(page));
        self.page_hash(page).copy_from_slice(&hash);
    }

    /// Stores the last key of each page.
    pub fn fix_last_keys(&mut self) {
        for page in 0..self.pages() {
            self.fix_last_key(page);
        }
    }

    /// Stores the hash of each page.
    pub fn fix_page_hashes(&mut self) {
        for page in 0..self.pages() {
            self.fix_page_hash(page);
        }
    }

    /// Stores the hash of the last keys and page hashes.
    pub fn fix_contents_hash(&mut self) {
        let hash = first_8(&self.bytes[self.pages() * PAGE..self.bytes.len() - FOOTER]);
        self.footer()[..HASH].copy_from_slice(&hash);
    }

    /// Stores the footer's own hash.
    pub fn fix_footer_hash(&mut self) {
        let footer = self.footer();
        footer[FOOTER_HASH].fill(0);
        let hash = first_8(&footer[VERSION..]);
        footer[FOOTER_HASH].copy_from_slice(&hash);
    }

    /// Puts faults into a good file, each so that it is met: all that is judged before it is right.
    pub fn put_faults(&mut self, random: &mut Random, faults: &[Fault]) {
        self.put_out_of_order(random, faults);
        self.put_padding(random, faults);
        self.fix_page_hashes();
        self.put_after_pages(random, faults);
    }

    /// Puts 8, from the front, since each key goes by the one before.
    fn put_out_of_order(&mut self, random: &mut Random, faults: &[Fault]) {
        for number in 0..self.entries {
            if faults.contains(&Fault::Order(number)) {
                let before = self.key(number - 1).to_vec();
                self.key(number).copy_from_slice(&before);
                if random.up_to(1) == 0 {
                    count_down(self.key(number));
                }
                self.fix_last_key(self.page_of(number));
            }
        }
    }

    /// Puts 7.
    fn put_padding(&mut self, random: &mut Random, faults: &[Fault]) {
        for &fault in faults {
            if let Fault::Padding(page) = fault {
                flip(random, self.padding(page));
            }
        }
    }

    /// Puts 6 and 9, which are faults of what is stored after the pages.
    fn put_after_pages(&mut self, random: &mut Random, faults: &[Fault]) {
        for &fault in faults {
            match fault {
                Fault::PageHash(page) => flip(random, self.page_hash(page)),
                Fault::LastKey(page) => flip(random, self.last_key(page)),
                Fault::Padding(_) | Fault::Order(_) => {}
            }
        }
    }
}

/// A fault of a page or of an entry, each named once at most in a list of faults.
#[derive(Clone, Copy, Debug, PartialEq, Eq)]
pub enum Fault {
    /// 6.
    PageHash(usize),
    /// 7; the page has padding.
    Padding(usize),
    /// 8; the entry is not the first of the file.
    Order(usize),
    /// 9.
    LastKey(usize),
}

/// Any settings, and how many entries: mostly few pages of them.
pub fn random_layout(random: &mut Random) -> (Settings, usize) {
    let settings = Settings {
        version: random.up_to(1) as u32,
        offset_width: 4 + random.up_to(2) as u32,
        key_length: 1 + random.up_to(15) as u32,
    };
    let full = settings.entries_per_page();
    let entries = match random.up_to(9) {
        0 => 0,
        1 => 1,
        2 => full - 1,
        3 => full,
        4 => full + 1,
        5 => 2 * full,
        6 => 2 * full + 1,
        7 => 1 + random.up_to(9),
        8 => random.up_to(full),
        _ => random.up_to(4 * full),
    };
    (settings, entries.min(keys(settings)))
}

/// A list whose keys count from 0, with sizes and locations that fall.
pub fn counted_list(settings: Settings, entries: usize) -> Vec<u8> {
    let mut list = Vec::new();
    for number in 0..entries {
        let key = (number as u128).to_be_bytes();
        list.extend(&key[key.len() - settings.key_len()..]);
        list.resize((number + 1) * settings.entry_len(), !number as u8);
    }
    list
}

/// Lists of two entries whose keys differ first at one place, for each place of a key and some
/// pairs of bytes there that rise as unsigned bytes. What follows that byte is against its order.
pub fn neighbour_lists(settings: Settings) -> impl Iterator<Item = Vec<u8>> {
    let pairs = [(0, 1), (0x7f, 0x80), (0x7f, 0xff), (0xfe, 0xff), (1, 0x80)];
    (0..settings.key_len()).flat_map(move |place| {
        pairs.into_iter().map(move |(low, high)| {
            let mut list = vec![0; 2 * settings.entry_len()];
            let (one, other) = list.split_at_mut(settings.entry_len());
            one.fill(0xff);
            one[..place].fill(0x55);
            other[..place].fill(0x55);
            one[place] = low;
            other[place] = high;
            list
        })
    })
}

/// A list of random entries whose keys rise: there must be as many keys.
pub fn random_list(random: &mut Random, settings: Settings, entries: usize) -> Vec<u8> {
    let mut list = Vec::with_capacity(entries * settings.entry_len());
    for key in rising_keys(random, settings.key_len(), entries) {
        list.extend(key);
        list.extend(random.bytes(settings.entry_len() - settings.key_len()));
    }
    list
}

/// `count` keys of this length: anything between all close together and spread over all keys, and
/// now and then from zero. There must be as many.
pub fn rising_keys(random: &mut Random, length: usize, count: usize) -> Vec<Vec<u8>> {
    let Some(others) = (count as u128).checked_sub(1) else {
        return Vec::new();
    };
    let bits = 8 * length as u32;
    let highest = u128::MAX >> (u128::BITS - bits);
    let room = highest.checked_sub(others).expect("there are as many keys");
    let gap = (room / (others + 1)) >> random.up_to(bits as usize - 1);
    let first = match random.up_to(3) {
        0 => 0,
        _ => wide_up_to(random, room - gap * (others + 1)),
    };
    (0..=others)
        .map(|number| {
            let key = first + number * gap + number + wide_up_to(random, gap);
            key.to_be_bytes()[16 - length..].to_vec()
        })
        .collect()
}

/// A number from 0 to `most`.
fn wide_up_to(random: &mut Random, most: u128) -> u128 {
    let number = u128::from(random.word()) << 64 | u128::from(random.word());
    match most.checked_add(1) {
        Some(count) => number % count,
        None => number,
    }
}

/// The key `step` above this one, all around.
pub fn beside(key: &[u8], step: i128) -> Vec<u8> {
    let mut wide = [0; 16];
    let start = wide.len() - key.len();
    wide[start..].copy_from_slice(key);
    let number = u128::from_be_bytes(wide).wrapping_add_signed(step);
    number.to_be_bytes()[start..].to_vec()
}

/// The key before this one; the lowest stays.
pub fn count_down(key: &mut [u8]) {
    if let Some(last) = key.iter().rposition(|&byte| byte != 0) {
        key[last] -= 1;
        key[last + 1..].fill(0xff);
    }
}

fn first_8(data: &[u8]) -> [u8; HASH] {
    let digest = md5::digest(data).expect("the data is below the limit");
    *digest.first_chunk().expect("16 bytes begin with 8")
}
