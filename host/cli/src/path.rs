//! Paths of files, as they are looked up in a root file.

use dwarnizza::root::PathRecord;
use dwarnizza::{CheckedRoot, Refusal};

use crate::masks::Masks;
use crate::name::shown_path;
use crate::status::Failure;

/// How many bytes of a path that is too long are named in words.
const NAMED: usize = 40;

/// The record of this path, or why it is not looked up. The library takes the empty path for one
/// like any other; in a list of a person it is a mistake.
pub fn find(
    root: CheckedRoot<'_>,
    path: &[u8],
    Masks { locale, unwanted }: Masks,
) -> Result<Option<PathRecord>, Failure> {
    if path.is_empty() {
        return Err(Failure::unfit("the path is empty"));
    }
    let found = root.find_path(path, locale, unwanted);
    found.map_err(|refusal| refused(path, refusal))
}

/// The library refused this path.
fn refused(path: &[u8], refusal: Refusal) -> Failure {
    let length = path.len();
    let begin = shown_path(&path[..length.min(NAMED)]);
    let words = format!("the path that begins with \"{begin}\" has {length} bytes: {refusal}");
    Failure {
        refusal: Some(refusal),
        ..Failure::unfit(words)
    }
}
