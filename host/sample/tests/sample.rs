//! The folder sample/ is what this program makes, and nothing else.

use std::collections::BTreeMap;
use std::fs;
use std::path::{Path, PathBuf};

/// What is written by hand.
const BY_HAND: &str = "README.md";

/// The root files: without a magic, with a short header, with a long one.
const ROOTS: [&str; 3] = ["root-v1", "root-short", "root-v2"];

/// What the names of damaged files begin with.
const DAMAGED: &str = "damaged/";

/// The repository's folder sample/.
fn folder() -> PathBuf {
    Path::new(env!("CARGO_MANIFEST_DIR")).join("../../sample")
}

/// All files of a folder and the folders in it, by their names relative to `top`.
fn stored(top: &Path, folder: &Path, files: &mut BTreeMap<String, Vec<u8>>) {
    for entry in fs::read_dir(folder).expect("the folder can be read") {
        let path = entry.expect("its entries can be read").path();
        if path.is_dir() {
            stored(top, &path, files);
        } else {
            let name = path.strip_prefix(top).expect("it is in the folder");
            let bytes = fs::read(&path).expect("the file can be read");
            files.insert(name.to_str().expect("its name is text").to_string(), bytes);
        }
    }
}

#[test]
fn the_folder_is_what_the_program_makes() {
    let mut files = BTreeMap::new();
    stored(&folder(), &folder(), &mut files);
    assert!(files.remove(BY_HAND).is_some());
    let made: BTreeMap<_, _> = sample::files().into_iter().collect();
    assert!(files.keys().eq(made.keys()), "{:?}", files.keys());
    for (name, bytes) in made {
        assert!(files[&name] == bytes, "{name} differs");
    }
}

#[test]
fn the_damaged_indexes_are_refused() {
    let files = sample::files().into_iter();
    let damaged = files.filter(|(name, _)| name.starts_with(DAMAGED));
    let refused: BTreeMap<_, _> = damaged
        .map(|(name, bytes)| {
            let refusal = second::index::check(&bytes).expect_err("it is damaged");
            (name, (refusal.number, refusal.place))
        })
        .collect();
    let expected = [("cut", (104, 11)), ("footer", (3, 0)), ("page", (6, 0))];
    let expected = expected.map(|(name, refusal)| (format!("{DAMAGED}{name}.index"), refusal));
    assert_eq!(refused, expected.into());
}

#[test]
fn every_other_file_passes_the_checks_of_the_second_program() {
    let files = sample::files().into_iter();
    for (name, bytes) in files.filter(|(name, _)| !name.starts_with(DAMAGED)) {
        if name.ends_with(".index") {
            second::index::check(&bytes).unwrap_or_else(|refusal| panic!("{name}: {refusal:?}"));
        }
        if name.ends_with(".blte") || name.starts_with("loose/") {
            let key = second::envelope::envelope_key(&bytes).expect("it is an envelope");
            let content = second::envelope::open(&bytes, &key).expect("it opens");
            if let Some(inner) = name.strip_suffix(".blte") {
                assert!(fs::read(folder().join(inner)).expect("it is there") == content);
            }
        }
    }
    let read = |name: &str| fs::read(folder().join(name)).expect("it is there");
    for root in ROOTS {
        assert_eq!(second::root::check(&read(root)), Ok(()));
    }
    assert_eq!(second::encoding::check(&read("encoding")), Ok(()));
}

/// A file is found by its path where its number is, but for the German ones in root files with a
/// magic: their block has no name hashes.
#[test]
fn every_file_is_found_by_its_path() {
    let read = |name: &str| fs::read(folder().join(name)).expect("it is there");
    let list = String::from_utf8(read("files.tsv")).expect("it is text");
    for line in list.lines().skip(1) {
        let fields: Vec<_> = line.split('\t').collect();
        let (number, path) = (fields[0].parse().expect("it is a number"), fields[7]);
        let locale = if fields[1] == "deDE" { 0x20 } else { 0x2 };
        for root in ROOTS {
            let file = read(root);
            let by_number = second::root::find(&file, number, locale, 0).expect("it is checked");
            let by_number = by_number.map(|found| (number, found));
            let has_hashes = root == "root-v1" || locale == 0x2;
            let expected = by_number.filter(|_| has_hashes);
            let found = second::root::find_path(&file, path.as_bytes(), locale, 0);
            assert_eq!(found, Ok(expected), "{line}");
            assert!(by_number.is_some(), "{line}");
        }
    }
}
