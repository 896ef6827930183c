//! Indexes of counted entries.

use second::index::Settings;

/// Version 1, W 4 and K 16.
pub const W4: Settings = Settings {
    version: 1,
    offset_width: 4,
    key_length: 16,
};

/// Version 1, W 6 and K 16.
pub const W6: Settings = Settings {
    version: 1,
    offset_width: 6,
    key_length: 16,
};

/// The key of an entry of this number, as text: 32 digits.
pub fn key(number: u32) -> String {
    format!("{:032x}", u128::from(number) << 64 | 0xabc)
}

/// A list of this number of entries: sizes count by 3 from 7, offsets by 5 from the given one.
pub fn list(settings: Settings, entries: u32, first_offset: u64) -> Vec<u8> {
    let mut list = Vec::new();
    for number in 0..entries {
        let key = (u128::from(number) << 64 | 0xabc).to_be_bytes();
        list.extend(&key[16 - settings.key_length as usize..]);
        list.extend((number * 3 + 7).to_be_bytes());
        let offset = (first_offset + 5 * u64::from(number)).to_be_bytes();
        list.extend(&offset[8 - settings.offset_width as usize..]);
    }
    list
}

/// The index of that list.
pub fn index(settings: Settings, entries: u32, first_offset: u64) -> Vec<u8> {
    of_list(settings, &list(settings, entries, first_offset))
}

/// The index of a list.
pub fn of_list(settings: Settings, list: &[u8]) -> Vec<u8> {
    let mut index = vec![0; settings.file_len(list.len() / settings.entry_len())];
    second::index::write(settings, list, &mut index).expect("the list may be written");
    index
}

/// The name that the footer of an index gives it.
pub fn name(index: &[u8]) -> String {
    let footer = &index[index.len() - 28..];
    second::md5::hex(second::md5::digest(footer).expect("it is short"))
}
