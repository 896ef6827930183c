//! Good files, made by the second program's writers with random settings and contents.

mod encoding;
mod envelope;
mod index;
mod keys;
mod root;

pub use encoding::{Encoding, KeySizes};
pub use envelope::{BEFORE_ROWS, Envelope, ROW};
pub use index::{Index, List};
pub use keys::{rising, sought};
pub use root::{Root, flags};
