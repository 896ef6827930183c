//! Every public module, type and function of the crate has an example in its documentation.

use std::fs;
use std::path::{Path, PathBuf};

/// Modules of the crate that nobody outside sees.
const PRIVATE: [&str; 2] = ["answer.rs", "library.rs"];

/// How public items begin.
const ITEMS: [&str; 5] = [
    "pub fn ",
    "pub const fn ",
    "pub struct ",
    "pub enum ",
    "pub mod ",
];

const EXAMPLE: &str = "```";

/// The sources in a folder and below it.
fn sources(folder: &Path) -> Vec<PathBuf> {
    let entries = fs::read_dir(folder).expect("the folder can be read");
    let paths = entries.map(|entry| entry.expect("it can be read").path());
    paths
        .flat_map(|path| match path.is_dir() {
            true => sources(&path),
            false => vec![path],
        })
        .collect()
}

/// Whether the documentation before a line has an example.
fn has_example(before: &[&str]) -> bool {
    let lines = before.iter().rev().map(|line| line.trim_start());
    let mut own = lines.take_while(|line| line.starts_with("//") || line.starts_with('#'));
    own.any(|line| line.starts_with("///") && line.contains(EXAMPLE))
}

/// The public items of a source that have no example. A module has its own at its start.
fn without_example(path: &Path) -> Vec<String> {
    let text = fs::read_to_string(path).expect("it is text");
    let lines: Vec<&str> = text.lines().collect();
    let is_item = |line: &str| ITEMS.iter().any(|item| line.trim_start().starts_with(item));
    let is_documented = |number: usize| match lines[number].strip_prefix("pub mod ") {
        Some(module) => {
            let file = path.with_file_name(module.replace(';', ".rs"));
            let text = fs::read_to_string(file).expect("the module is there");
            let mut start = text.lines().take_while(|line| line.starts_with("//!"));
            start.any(|line| line.contains(EXAMPLE))
        }
        None => has_example(&lines[..number]),
    };
    let items = (0..lines.len()).filter(|&number| is_item(lines[number]));
    let missing = items.filter(|&number| !is_documented(number));
    missing.map(|number| lines[number].to_string()).collect()
}

#[test]
fn every_item_has_one() {
    let source = Path::new(env!("CARGO_MANIFEST_DIR")).join("src");
    let mut files = 0;
    for path in sources(&source) {
        if PRIVATE.iter().any(|name| path.ends_with(name)) {
            continue;
        }
        let missing = without_example(&path);
        assert!(missing.is_empty(), "{}: {missing:?}", path.display());
        files += 1;
    }
    assert!(files > 5, "the sources are there");
}
