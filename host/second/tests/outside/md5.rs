//! MD5 by md5sum, OpenSSL and Python's hashlib.

use std::fs;
use std::path::PathBuf;
use std::process::Command;

use second::md5::{State, digest, hex};
use second::md5_suite::data;

use crate::tools::{lines_by_python, printed_by};

const SHORT: usize = 300;
const LARGE: [usize; 4] = [4096, 65_535, 65_537, 5_000_000];

/// The digests of the second program, which all come out the same in parts of 1,000 bytes.
fn digest_of(data: &[u8]) -> String {
    let mut state = State::new();
    for part in data.chunks(1000) {
        state.update(part).unwrap();
    }
    let whole = digest(data).unwrap();
    assert_eq!(state.finish(), whole, "{} bytes", data.len());
    hex(whole)
}

/// A file of each length, in a folder of its own.
fn files(folder: &str) -> Vec<(PathBuf, String)> {
    let folder = PathBuf::from(env!("CARGO_TARGET_TMPDIR")).join(folder);
    fs::create_dir_all(&folder).unwrap();
    let lengths = (0..=SHORT).chain(LARGE);
    lengths
        .map(|length| {
            let data = data(length);
            let path = folder.join(length.to_string());
            fs::write(&path, &data).unwrap();
            (path, digest_of(&data))
        })
        .collect()
}

/// A tool that prints a line for each file, with the digest first.
fn compare_with(folder: &str, tool: &mut Command) {
    let files = files(folder);
    tool.args(files.iter().map(|(path, _)| path));
    let Some(printed) = printed_by(tool, &[]) else {
        return;
    };
    let printed = String::from_utf8(printed).unwrap();
    assert_eq!(printed.lines().count(), files.len());
    for (line, (path, digest)) in printed.lines().zip(&files) {
        assert_eq!(
            line.split(' ').next(),
            Some(&**digest),
            "{}",
            path.display()
        );
    }
}

#[test]
fn md5sum() {
    compare_with("md5sum", &mut Command::new("md5sum"));
}

#[test]
fn openssl() {
    let mut openssl = Command::new("openssl");
    compare_with("openssl", openssl.args(["dgst", "-md5", "-r"]));
}

#[test]
fn hashlib() {
    for length in LARGE {
        let data = data(length);
        let Some(printed) = lines_by_python("md5", &data) else {
            return;
        };
        let lengths = (0..=SHORT).chain([length]);
        let digests: Vec<_> = lengths.map(|length| digest_of(&data[..length])).collect();
        assert_eq!(printed, digests);
    }
}
