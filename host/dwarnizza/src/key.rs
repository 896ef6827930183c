//! Keys, and the text of a key.

use std::fmt;

use crate::answer::size;
use crate::library;
use crate::refusal::Refusal;

/// A key of 1 to 16 bytes. Its text is lower-case hex, and its order that of its bytes from the
/// left; of two keys of which one begins the other, the shorter comes first.
///
/// ```
/// use dwarnizza::Key;
///
/// let key = Key::from_text("00FF", 2)?;
/// assert_eq!(key.to_string(), "00ff");
/// assert!(key < Key::from_text("01", 1)?);
/// # Ok::<(), dwarnizza::Refusal>(())
/// ```
// The derived order is that of the bytes: what stands past a key's length is the lowest byte.
#[derive(Clone, Copy, PartialEq, Eq, PartialOrd, Ord, Hash)]
pub struct Key {
    /// Zero past the key's length.
    bytes: [u8; 16],
    length: usize,
}

impl Key {
    /// The key of this length that this is the text of: two hex digits for each byte, in either
    /// case, and nothing else. A key is never cut or filled up.
    ///
    /// Refused, by the first that holds, with [`Settings`] where the key length is not 1 to 16,
    /// [`KeyTextLength`], and [`HexDigit`] with the place of the first that is none.
    ///
    /// ```
    /// use dwarnizza::{Key, Reason};
    ///
    /// let key = Key::from_text("00Ff", 2)?;
    /// assert_eq!(key.as_bytes(), [0, 0xff]);
    /// let refused = Key::from_text("417", 2).unwrap_err();
    /// assert_eq!(refused.reason, Reason::KeyTextLength);
    /// # Ok::<(), dwarnizza::Refusal>(())
    /// ```
    ///
    /// [`Settings`]: crate::Reason::Settings
    /// [`KeyTextLength`]: crate::Reason::KeyTextLength
    /// [`HexDigit`]: crate::Reason::HexDigit
    pub fn from_text(text: impl AsRef<[u8]>, key_length: u8) -> Result<Self, Refusal> {
        let mut bytes = [0; 16];
        let [length, ..] = library::key_text(text.as_ref(), key_length, &mut bytes)?;
        Ok(Self {
            bytes,
            length: size(length),
        })
    }

    /// The key of these bytes; none where they are not 1 to 16.
    ///
    /// ```
    /// use dwarnizza::Key;
    ///
    /// assert_eq!(Key::from_bytes(&[4, 0x17]), Key::from_text("0417", 2).ok());
    /// assert_eq!(Key::from_bytes(&[]), None);
    /// ```
    pub fn from_bytes(key: &[u8]) -> Option<Self> {
        let mut bytes = [0; 16];
        bytes.get_mut(..key.len())?.copy_from_slice(key);
        (!key.is_empty()).then_some(Self {
            bytes,
            length: key.len(),
        })
    }

    /// The bytes of the key.
    ///
    /// ```
    /// let key = dwarnizza::Key::from_text("0417", 2)?;
    /// assert_eq!(key.as_bytes(), [4, 0x17]);
    /// # Ok::<(), dwarnizza::Refusal>(())
    /// ```
    pub fn as_bytes(&self) -> &[u8] {
        &self.bytes[..self.length]
    }
}

impl AsRef<[u8]> for Key {
    fn as_ref(&self) -> &[u8] {
        self.as_bytes()
    }
}

impl From<[u8; 16]> for Key {
    fn from(bytes: [u8; 16]) -> Self {
        let length = bytes.len();
        Self { bytes, length }
    }
}

impl fmt::Display for Key {
    fn fmt(&self, f: &mut fmt::Formatter<'_>) -> fmt::Result {
        let mut bytes = self.as_bytes().iter();
        bytes.try_for_each(|byte| write!(f, "{byte:02x}"))
    }
}

impl fmt::Debug for Key {
    fn fmt(&self, f: &mut fmt::Formatter<'_>) -> fmt::Result {
        write!(f, "Key({self})")
    }
}

#[cfg(test)]
mod tests {
    use super::*;

    #[test]
    fn keys_are_ordered_as_their_bytes() {
        let keys = [
            &[0][..],
            &[0, 0],
            &[0, 1],
            &[1],
            &[1, 0, 0],
            &[1, 0, 1],
            &[255; 16],
        ];
        for (number, key) in keys.iter().enumerate() {
            for (other_number, other) in keys.iter().enumerate() {
                let [key, other] = [key, other].map(|key| Key::from_bytes(key).unwrap());
                assert_eq!(key.cmp(&other), number.cmp(&other_number), "{key} {other}");
                assert_eq!(key.cmp(&other), key.as_bytes().cmp(other.as_bytes()));
            }
        }
    }

    #[test]
    fn bytes_of_every_length() {
        for length in 0..=20 {
            let bytes = vec![0xa5; length];
            let key = Key::from_bytes(&bytes);
            assert_eq!(key.is_some(), (1..=16).contains(&length));
            if let Some(key) = key {
                assert_eq!(key.as_ref(), bytes);
                assert_eq!(key.to_string(), "a5".repeat(length));
                assert_eq!(Key::from_text(key.to_string(), length as u8), Ok(key));
            }
        }
        assert_eq!(Key::from([7; 16]), Key::from_bytes(&[7; 16]).unwrap());
        assert_eq!(
            format!("{:?}", Key::from([7; 16])),
            format!("Key({})", "07".repeat(16))
        );
    }
}
