//! Repair after damage, so that it is reached: nearly every damaged file is refused at its first
//! hash.

mod encoding;
mod envelope;
mod index;

pub use encoding::encoding;
pub use envelope::envelope;
pub use index::index;

use second::md5;

/// The longest file that a repair of the length makes.
const LONGEST: usize = 1 << 15;

/// The MD5 of a part of a file.
fn digest(bytes: &[u8]) -> [u8; 16] {
    md5::digest(bytes).expect("a part of a file is below the limit")
}
