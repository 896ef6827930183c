//! Inputs of a case that failed, kept as files.

use std::fs;
use std::io;
use std::path::{Path, PathBuf};

use crate::compare::Difference;

/// Writes each byte input of a difference to a file of this folder, named by the seed, the case and
/// the input, and gives their paths.
pub fn keep_inputs(
    difference: &Difference,
    folder: &Path,
    seed: u64,
    case: u64,
) -> io::Result<Vec<PathBuf>> {
    fs::create_dir_all(folder)?;
    let mut paths = Vec::new();
    for (name, bytes) in difference.named_inputs() {
        let path = folder.join(format!("{seed}-{case}-{name}"));
        fs::write(&path, bytes)?;
        paths.push(path);
    }
    Ok(paths)
}
