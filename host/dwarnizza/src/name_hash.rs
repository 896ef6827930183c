//! Name hashes: what stands for a path in a root file.

use crate::library;
use crate::refusal::Refusal;

/// The name hash of a path, which may be any bytes: capitals and small letters from a to z count
/// alike, and so do slashes and backslashes. All other bytes count as they are, those above 127
/// too.
///
/// Refused with [`PathLength`] where the path has more than 1,024 bytes.
///
/// ```
/// use dwarnizza::{Reason, name_hash};
///
/// let hash = name_hash(br"Interface\Icons\INV_Misc_QuestionMark.blp")?;
/// assert_eq!(hash, 0x9EB5_9E3C_7612_4837);
/// assert_eq!(name_hash(b"interface/icons/inv_misc_questionmark.blp")?, hash);
///
/// let refused = name_hash(&[b'a'; 1025]).unwrap_err();
/// assert_eq!(refused.reason, Reason::PathLength);
/// # Ok::<(), dwarnizza::Refusal>(())
/// ```
///
/// [`PathLength`]: crate::Reason::PathLength
pub fn name_hash(path: &[u8]) -> Result<u64, Refusal> {
    let [hash, ..] = library::name_hash(path)?;
    Ok(hash)
}
