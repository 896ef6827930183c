//! The two ways to compare keys that the proved crates `key_bytes` and `halving_bytes` export, byte
//! by byte and eight bytes at once, and the lookup in an index by either.

use dwarnizza_sys::dwarnizza_index_settings;
use fuzz::export::{ABSENT, ANSWERED};
use second::index::{PAGE, Settings};

/// What a comparison says of equal keys. 0 is below and 2 above.
const EQUAL: u32 = 1;

/// How many bytes of an entry are its size.
const SIZE_WIDTH: usize = 4;

/// Where a halving ended, and how many keys it compared.
#[repr(C)]
struct Place {
    place: u32,
    count: u32,
}

/// A key and its length, and another and its length.
type Compare = unsafe extern "C" fn(*const u8, usize, *const u8, usize) -> u32;

/// Keys and their length, how far they are apart and how many they are, the sought one and its
/// length.
type Halve = unsafe extern "C" fn(*const u8, usize, u32, u32, *const u8, usize) -> Place;

// The exports of libkey_bytes.a and libhalving_bytes.a.
unsafe extern "C" {
    fn key_bytes_compare(a: *const u8, a_len: usize, b: *const u8, b_len: usize) -> u32;

    fn key_eights_compare(a: *const u8, a_len: usize, b: *const u8, b_len: usize) -> u32;

    fn key_bytes_halve(
        keys: *const u8,
        keys_len: usize,
        stride: u32,
        count: u32,
        key: *const u8,
        key_len: usize,
    ) -> Place;

    fn key_eights_halve(
        keys: *const u8,
        keys_len: usize,
        stride: u32,
        count: u32,
        key: *const u8,
        key_len: usize,
    ) -> Place;
}

/// A way to compare keys.
#[derive(Clone, Copy)]
pub struct Way {
    compare: Compare,
    halve: Halve,
}

/// As the library did before.
pub const BYTES: Way = Way {
    compare: key_bytes_compare,
    halve: key_bytes_halve,
};

/// As the library does.
pub const EIGHTS: Way = Way {
    compare: key_eights_compare,
    halve: key_eights_halve,
};

impl Way {
    /// How one key stands to another: 0 below, 1 equal, 2 above.
    pub fn compare(self, a: &[u8], b: &[u8]) -> u32 {
        // SAFETY: pointers and lengths are those of slices.
        unsafe { (self.compare)(a.as_ptr(), a.len(), b.as_ptr(), b.len()) }
    }

    /// Halves over `count` keys that stand `stride` bytes apart.
    fn halve(self, keys: &[u8], stride: usize, count: usize, key: &[u8]) -> Place {
        let (stride, count) = (stride as u32, count as u32);
        let (at, key_at) = (keys.as_ptr(), key.as_ptr());
        // SAFETY: pointers and lengths are those of slices.
        unsafe { (self.halve)(at, keys.len(), stride, count, key_at, key.len()) }
    }

    /// The lookup of a key: result and words, as `dwarnizza_index_lookup` gives them.
    pub fn lookup(self, index: &[u8], key: &[u8]) -> (u32, [u64; 8]) {
        let Opened {
            settings,
            entries,
            pages,
        } = open(index);
        assert_eq!(key.len(), settings.key_len(), "the key is as long as K");
        let ended = self.halve(&index[pages * PAGE..], key.len(), pages, key);
        let page = ended.place as usize;
        if pages <= page {
            return absent(ended.count);
        }
        let (full, stride) = (settings.entries_per_page(), settings.entry_len());
        let on_page = full.min(entries - page * full);
        let stored = &index[page * PAGE..];
        let in_page = self.halve(stored, stride, on_page, key);
        let compared = ended.count + in_page.count;
        let slot = in_page.place as usize;
        if on_page <= slot {
            return absent(compared);
        }
        let (stored_key, rest) = stored[slot * stride..][..stride].split_at(key.len());
        if self.compare(stored_key, key) != EQUAL {
            return absent(compared + 1);
        }
        let (size, location) = rest.split_at(SIZE_WIDTH);
        let [page, slot, compared] = [ended.place, in_page.place, compared + 1].map(u64::from);
        let (size, location) = (number(size), number(location));
        (ANSWERED, [page, slot, size, location, compared, 0, 0, 0])
    }
}

/// What the opening of an index tells.
struct Opened {
    settings: Settings,
    entries: usize,
    pages: usize,
}

fn open(index: &[u8]) -> Opened {
    let mut answer = [0; 8];
    // SAFETY: pointer and length are those of a slice.
    let result = unsafe { dwarnizza_index_settings(index.as_ptr(), index.len(), &mut answer) };
    assert_eq!(result, ANSWERED, "the index is good");
    let [version, offset_width, key_length, entries, pages, ..] = answer;
    Opened {
        settings: Settings {
            version: version as u32,
            offset_width: offset_width as u32,
            key_length: key_length as u32,
        },
        entries: entries as usize,
        pages: pages as usize,
    }
}

fn absent(compared: u32) -> (u32, [u64; 8]) {
    (ABSENT, [0, 0, 0, 0, compared.into(), 0, 0, 0])
}

/// A number, its highest byte first.
fn number(bytes: &[u8]) -> u64 {
    bytes
        .iter()
        .fold(0, |number, &byte| number << 8 | u64::from(byte))
}
