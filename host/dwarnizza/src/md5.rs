//! MD5 (RFC 1321), over at most 2^48 bytes.

use crate::answer::unrefused;
use crate::library::{self, State};
use crate::refusal::Refusal;

/// The digest of `data`.
///
/// Refused with [`HashLimit`](crate::Reason::HashLimit) above 2^48 bytes.
///
/// ```
/// let digest = dwarnizza::md5(b"abc")?;
/// assert_eq!(digest[..4], [0x90, 0x01, 0x50, 0x98]);
/// # Ok::<(), dwarnizza::Refusal>(())
/// ```
pub fn md5(data: &[u8]) -> Result<[u8; 16], Refusal> {
    library::md5(data)
}

/// The running state of MD5, for data that comes in parts.
///
/// ```
/// let mut state = dwarnizza::Md5::new();
/// state.update(b"a")?;
/// state.update(b"bc")?;
/// assert_eq!(state.finish(), dwarnizza::md5(b"abc")?);
/// # Ok::<(), dwarnizza::Refusal>(())
/// ```
#[derive(Clone, Debug)]
pub struct Md5(State);

impl Md5 {
    /// The state before the first part.
    ///
    /// ```
    /// assert_eq!(dwarnizza::Md5::new().finish(), dwarnizza::md5(b"")?);
    /// # Ok::<(), dwarnizza::Refusal>(())
    /// ```
    pub fn new() -> Self {
        let mut state = ([0; 4], [0; 64], 0);
        unrefused(library::md5_start(&mut state));
        Self(state)
    }

    /// A state from its parts: the words A, B, C, D after the whole blocks so far, 64 bytes of
    /// which the first `count % 64` are those after these blocks, and the count of all bytes.
    ///
    /// Every value is a state, also one that no data leads to.
    ///
    /// ```
    /// use dwarnizza::Md5;
    ///
    /// let mut state = Md5::new();
    /// state.update(b"message")?;
    /// let (words, pending, count) = state.to_parts();
    /// assert_eq!(count, 7);
    /// assert_eq!(Md5::from_parts(words, pending, count).finish(), state.finish());
    /// # Ok::<(), dwarnizza::Refusal>(())
    /// ```
    pub fn from_parts(words: [u32; 4], pending: [u8; 64], count: u64) -> Self {
        Self((words, pending, count))
    }

    /// The parts of the state, as [`from_parts`](Self::from_parts) takes them.
    ///
    /// ```
    /// let (_, _, count) = dwarnizza::Md5::new().to_parts();
    /// assert_eq!(count, 0);
    /// ```
    pub fn to_parts(&self) -> ([u32; 4], [u8; 64], u64) {
        self.0
    }

    /// Takes one more part.
    ///
    /// Refused with [`HashLimit`](crate::Reason::HashLimit) where the part would bring the count
    /// above 2^48 bytes; the state is then as it was.
    ///
    /// ```
    /// let mut state = dwarnizza::Md5::new();
    /// state.update(b"message ")?;
    /// state.update(b"digest")?;
    /// assert_eq!(state.finish(), dwarnizza::md5(b"message digest")?);
    /// # Ok::<(), dwarnizza::Refusal>(())
    /// ```
    pub fn update(&mut self, part: &[u8]) -> Result<(), Refusal> {
        library::md5_update(part, &mut self.0)?;
        Ok(())
    }

    /// The digest of all parts so far. Further parts may follow.
    ///
    /// ```
    /// let mut state = dwarnizza::Md5::new();
    /// state.update(b"a")?;
    /// assert_eq!(state.finish(), dwarnizza::md5(b"a")?);
    /// state.update(b"bc")?;
    /// assert_eq!(state.finish(), dwarnizza::md5(b"abc")?);
    /// # Ok::<(), dwarnizza::Refusal>(())
    /// ```
    pub fn finish(&self) -> [u8; 16] {
        let mut digest = [0; 16];
        unrefused(library::md5_finish(&self.0, &mut digest));
        digest
    }
}

impl Default for Md5 {
    fn default() -> Self {
        Self::new()
    }
}
