//! The suite's text, by the second program and as stored for the library's program.

use std::fs;
use std::path::Path;

use second::md5_suite;

#[test]
fn rfc_1321_strings() {
    for (string, digest) in md5_suite::RFC_1321 {
        let found = second::md5::digest(string.as_bytes()).unwrap();
        assert_eq!(second::md5::hex(found), digest, "{string:?}");
    }
}

#[test]
fn stored_output() {
    let path = Path::new(env!("CARGO_MANIFEST_DIR")).join("../../crates/md5_suite/stdout");
    let stored =
        fs::read(&path).unwrap_or_else(|error| panic!("cannot read {}: {error}", path.display()));
    let stored = String::from_utf8(stored).expect("the stored output is text");
    assert_same_lines(&stored, &md5_suite::second());
}

fn assert_same_lines(left: &str, right: &str) {
    for (left, right) in left.lines().zip(right.lines()) {
        assert_eq!(left, right);
    }
    assert!(left == right, "one text goes on where the other ends");
}
