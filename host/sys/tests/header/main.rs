//! `include/dwarnizza.h` against what it stands for: the declarations of this package, the numbers
//! of the proved crates, the version of the packages, and what the library does with NULL.

mod c;
mod declarations;
mod null;
mod numbers;
mod rust;
mod version;

use std::fs;
use std::path::Path;

/// A file of the repository.
fn text(path: &str) -> String {
    let path = Path::new(env!("CARGO_MANIFEST_DIR"))
        .join("../..")
        .join(path);
    fs::read_to_string(&path).unwrap_or_else(|error| panic!("{}: {error}", path.display()))
}

/// The header.
fn header() -> String {
    text("include/dwarnizza.h")
}
