//! The entries of pages.

use std::iter;

use crate::number::big_endian;

/// The spec number that makes an encoding entry padding, whatever its key.
pub const PADDING: u32 = u32::MAX;

/// How many bytes a size has.
const SIZE: usize = 5;

/// A content entry, of which the keys stand in the file.
#[derive(Clone, Copy, Debug, PartialEq, Eq)]
pub struct ContentEntry<'a> {
    /// How many encoding keys it has.
    pub count: u8,
    /// The decoded size.
    pub size: u64,
    /// The content key.
    pub key: &'a [u8],
    /// The encoding keys, one after the other.
    pub encoding_keys: &'a [u8],
}

/// An encoding entry, of which the key stands in the file.
#[derive(Clone, Copy, Debug, PartialEq, Eq)]
pub struct EncodingEntry<'a> {
    /// The encoding key.
    pub key: &'a [u8],
    /// The number of its spec.
    pub spec_number: u32,
    /// The encoded size.
    pub size: u64,
}

/// A content entry that runs over its page's end.
pub struct OverPageEnd;

/// The entries of a content page, with keys of these lengths. What follows one over the page's end
/// is no entry.
pub fn content_entries(
    page: &[u8],
    key_len: usize,
    encoding_key_len: usize,
) -> impl Iterator<Item = Result<ContentEntry<'_>, OverPageEnd>> {
    let mut rest = page;
    iter::from_fn(move || {
        let &count = rest.first().filter(|&&count| count > 0)?;
        let length = 1 + SIZE + key_len + usize::from(count) * encoding_key_len;
        let Some((entry, after)) = rest.split_at_checked(length) else {
            return Some(Err(OverPageEnd));
        };
        rest = after;
        let (size, keys) = entry[1..].split_at(SIZE);
        let (key, encoding_keys) = keys.split_at(key_len);
        Some(Ok(ContentEntry {
            count,
            size: big_endian(size),
            key,
            encoding_keys,
        }))
    })
}

/// The entries of an encoding page, with keys of this length, without padding.
pub fn encoding_entries(page: &[u8], key_len: usize) -> impl Iterator<Item = EncodingEntry<'_>> {
    page.chunks_exact(EncodingEntry::length(key_len))
        .map(move |entry| EncodingEntry::read(entry, key_len))
        .filter(|entry| !entry.is_padding())
}

impl<'a> ContentEntry<'a> {
    /// The first of its encoding keys.
    pub fn first_encoding_key(&self) -> &'a [u8] {
        &self.encoding_keys[..self.encoding_keys.len() / usize::from(self.count)]
    }

    /// The entry's bytes.
    pub fn bytes(&self) -> Vec<u8> {
        let mut entry = vec![self.count];
        entry.extend(size_bytes(self.size));
        entry.extend(self.key);
        entry.extend(self.encoding_keys);
        entry
    }
}

impl<'a> EncodingEntry<'a> {
    /// How many bytes an entry has, with keys of this length.
    pub fn length(key_len: usize) -> usize {
        key_len + 4 + SIZE
    }

    fn read(entry: &'a [u8], key_len: usize) -> Self {
        let (key, rest) = entry.split_at(key_len);
        let (spec_number, size) = rest.split_at(4);
        Self {
            key,
            spec_number: big_endian(spec_number) as u32,
            size: big_endian(size),
        }
    }

    fn is_padding(&self) -> bool {
        match self.spec_number {
            PADDING => true,
            0 => self.key.iter().all(|&byte| byte == 0),
            _ => false,
        }
    }

    /// The entry's bytes.
    pub fn bytes(&self) -> Vec<u8> {
        let mut entry = self.key.to_vec();
        entry.extend(self.spec_number.to_be_bytes());
        entry.extend(size_bytes(self.size));
        entry
    }
}

/// The bytes of a size.
fn size_bytes(size: u64) -> [u8; SIZE] {
    let [0, 0, 0, bytes @ ..] = size.to_be_bytes() else {
        panic!("a size has {SIZE} bytes");
    };
    bytes
}
