//! BLTE envelopes of plain chunks.
//!
//! ```
//! use dwarnizza::Envelope;
//!
//! let file = std::fs::read("../../sample/root-v1.blte")?;
//! let envelope = Envelope::check(&file, Envelope::key_of(&file)?)?;
//! assert_eq!(envelope.content(), std::fs::read("../../sample/root-v1")?);
//! # Ok::<(), Box<dyn std::error::Error>>(())
//! ```

use crate::answer::{size, unrefused};
use crate::library;
use crate::refusal::Refusal;

/// Where calls on envelopes begin: [`Envelope::check`] and [`Envelope::key_of`].
///
/// ```
/// use dwarnizza::{Envelope, Reason};
///
/// let refused = Envelope::key_of(b"no envelope").unwrap_err();
/// assert_eq!(refused.reason, Reason::NotBlte);
/// ```
#[derive(Debug)]
pub enum Envelope {}

impl Envelope {
    /// The full check of an envelope, which must have this key.
    ///
    /// Refused, by the first that holds, with [`NotBlte`], [`EnvelopeHeader`], [`ChunkSizes`],
    /// [`EnvelopeKey`], then chunk by chunk [`ChunkHash`], [`ChunkMode`], [`DecodedSize`]. Without
    /// a chunk table, and with a key of 16 bytes, a file above 2^48 bytes is [`HashLimit`] in place
    /// of [`EnvelopeKey`].
    ///
    /// ```
    /// use dwarnizza::{Envelope, Reason};
    ///
    /// let file = b"BLTE\0\0\0\0NA";
    /// let envelope = Envelope::check(file, dwarnizza::md5(file)?)?;
    /// assert_eq!(envelope.content(), b"A");
    /// let refused = Envelope::check(file, b"another key").unwrap_err();
    /// assert_eq!(refused.reason, Reason::EnvelopeKey);
    /// # Ok::<(), dwarnizza::Refusal>(())
    /// ```
    ///
    /// [`NotBlte`]: crate::Reason::NotBlte
    /// [`EnvelopeHeader`]: crate::Reason::EnvelopeHeader
    /// [`ChunkSizes`]: crate::Reason::ChunkSizes
    /// [`EnvelopeKey`]: crate::Reason::EnvelopeKey
    /// [`HashLimit`]: crate::Reason::HashLimit
    /// [`ChunkHash`]: crate::Reason::ChunkHash
    /// [`ChunkMode`]: crate::Reason::ChunkMode
    /// [`DecodedSize`]: crate::Reason::DecodedSize
    pub fn check(file: &[u8], key: impl AsRef<[u8]>) -> Result<CheckedEnvelope<'_>, Refusal> {
        let key = key.as_ref();
        let [length, ..] = library::envelope_length(file, key)?;
        Ok(CheckedEnvelope {
            file,
            key: key.try_into().expect("a key that passes has 16 bytes"),
            content_len: size(length),
        })
    }

    /// The key of an envelope: the MD5 of its header, or of the whole file where it has no chunk
    /// table. The chunks are not judged.
    ///
    /// Refused, by the first that holds, with [`NotBlte`], [`EnvelopeHeader`], [`ChunkSizes`] and
    /// [`HashLimit`].
    ///
    /// ```
    /// use dwarnizza::Envelope;
    ///
    /// let file = b"BLTE\0\0\0\0NA";
    /// assert_eq!(Envelope::key_of(file)?, dwarnizza::md5(file)?);
    /// # Ok::<(), dwarnizza::Refusal>(())
    /// ```
    ///
    /// [`NotBlte`]: crate::Reason::NotBlte
    /// [`EnvelopeHeader`]: crate::Reason::EnvelopeHeader
    /// [`ChunkSizes`]: crate::Reason::ChunkSizes
    /// [`HashLimit`]: crate::Reason::HashLimit
    pub fn key_of(file: &[u8]) -> Result<[u8; 16], Refusal> {
        library::envelope_key(file)
    }
}

/// An envelope that passed the full check.
///
/// ```
/// use dwarnizza::{Envelope, Key};
///
/// let file = std::fs::read("../../sample/encoding.blte")?;
/// let key = Key::from_text("8cffb15a2230cd81b72b154219da4480", 16)?;
/// let content = Envelope::check(&file, key)?.content();
/// assert_eq!(content, std::fs::read("../../sample/encoding")?);
/// # Ok::<(), Box<dyn std::error::Error>>(())
/// ```
#[derive(Clone, Copy, Debug, PartialEq, Eq)]
pub struct CheckedEnvelope<'a> {
    file: &'a [u8],
    key: [u8; 16],
    content_len: usize,
}

impl<'a> CheckedEnvelope<'a> {
    /// The envelope itself.
    ///
    /// ```
    /// use dwarnizza::Envelope;
    ///
    /// let file = b"BLTE\0\0\0\0NA";
    /// assert_eq!(Envelope::check(file, dwarnizza::md5(file)?)?.bytes(), file);
    /// # Ok::<(), dwarnizza::Refusal>(())
    /// ```
    pub fn bytes(self) -> &'a [u8] {
        self.file
    }

    /// Its key.
    ///
    /// ```
    /// use dwarnizza::Envelope;
    ///
    /// let file = b"BLTE\0\0\0\0NA";
    /// let key = Envelope::key_of(file)?;
    /// assert_eq!(Envelope::check(file, key)?.key(), key);
    /// # Ok::<(), dwarnizza::Refusal>(())
    /// ```
    pub fn key(self) -> [u8; 16] {
        self.key
    }

    /// How many bytes its content has.
    ///
    /// ```
    /// use dwarnizza::Envelope;
    ///
    /// let file = b"BLTE\0\0\0\0NA";
    /// assert_eq!(Envelope::check(file, dwarnizza::md5(file)?)?.content_len(), 1);
    /// # Ok::<(), dwarnizza::Refusal>(())
    /// ```
    pub fn content_len(self) -> usize {
        self.content_len
    }

    /// Its content.
    ///
    /// ```
    /// use dwarnizza::Envelope;
    ///
    /// let file = b"BLTE\0\0\0\0NA";
    /// assert_eq!(Envelope::check(file, dwarnizza::md5(file)?)?.content(), b"A");
    /// # Ok::<(), dwarnizza::Refusal>(())
    /// ```
    pub fn content(self) -> Vec<u8> {
        let mut content = vec![0; self.content_len];
        unrefused(self.content_into(&mut content));
        content
    }

    /// Writes its content to the start of `output`, and gives its length. The bytes past it stay.
    ///
    /// Refused with [`ContentOutputShort`](crate::Reason::ContentOutputShort) where the output is
    /// shorter than the content; the output is then as it was.
    ///
    /// ```
    /// use dwarnizza::Envelope;
    ///
    /// let file = b"BLTE\0\0\0\0NA";
    /// let mut output = *b"...";
    /// let envelope = Envelope::check(file, dwarnizza::md5(file)?)?;
    /// assert_eq!(envelope.content_into(&mut output)?, 1);
    /// assert_eq!(output, *b"A..");
    /// # Ok::<(), dwarnizza::Refusal>(())
    /// ```
    pub fn content_into(self, output: &mut [u8]) -> Result<usize, Refusal> {
        let [length, ..] = library::envelope_open(self.file, &self.key, output)?;
        Ok(size(length))
    }
}
