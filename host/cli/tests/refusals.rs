//! What is said of indexes that are refused, and how much is read of them.

mod run;

use std::fs::{self, File};
use std::os::unix::fs::FileExt;
use std::path::Path;

use forge::counted::{W4, index, list};
use forge::faults::index::IndexFile;
use run::{folder, put, run, run_from_file, run_in_2_gb};

/// These bytes are refused with these words.
#[track_caller]
fn expect_words(folder: &Path, bytes: &[u8], words: &str) {
    put(folder, "index", bytes);
    let refused = run(folder, ["index", "check", "index"]);
    let said = &refused.errors;
    assert!(said.contains(words), "{words}\n{said}");
    assert_eq!(refused.status, 2);
}

/// These bytes with another at this place.
fn with(bytes: &[u8], at: usize, byte: u8) -> Vec<u8> {
    let mut bytes = bytes.to_vec();
    bytes[at] = byte;
    bytes
}

/// Files of another kind, and what is said of them by their first bytes.
const KINDS: [(&[u8], &str); 9] = [
    (
        b"",
        "refused 1: index under 28 bytes; by its first bytes it is an empty file",
    ),
    (
        b"BLTE and more of an envelope, so that it is long",
        "it is a BLTE envelope",
    ),
    (
        b"<html> of a server that has not got the file </html>",
        "it is a page of HTML",
    ),
    (
        b"# CDN Configuration, and more of it: archives = ..",
        "it is a configuration file",
    ),
    (
        b"EN\x01 and more of an encoding file, so that it is long",
        "it is an encoding file",
    ),
    (
        b"TSFM and more of a root file, so that it is long enough",
        "it is a root file",
    ),
    (
        b"\x1f\x8b\x08 and more of a packed file, so that it is long",
        "it is a gzip file",
    ),
    (
        b"IN\x01 and more of an install file, so that it is long",
        "it is an install file",
    ),
    // What begins like text and is none is of no known kind.
    (
        b"<\x00\x01\x02 and more that is no text, so that it is long",
        "no footer of an archive index",
    ),
];

#[test]
fn words_of_other_kinds() {
    let folder = folder("refusals_kinds");
    for (bytes, words) in KINDS {
        expect_words(&folder, bytes, words);
    }
}

#[test]
fn words_of_footers() {
    let folder = folder("refusals_footers");
    let good = index(W4, 400, 0);
    let end = good.len();
    // With another offset width, and the footer's hash right.
    let of_width = |width: u8| {
        let mut file = IndexFile::new(W4, &list(W4, 400, 0));
        file.footer()[12] = width;
        file.fix_footer_hash();
        file.bytes
    };
    for (bytes, words) in [
        (
            &b"\x07short"[..],
            "refused 1: index under 28 bytes; it has 6 bytes: cut in download",
        ),
        (
            &good[..5000],
            "refused 103 at 10: reserved footer byte not zero (footer byte 10); reserved byte is 4, must be 0, so its last bytes are no footer",
        ),
        (
            &of_width(7),
            "refused 105 at 12: footer offset width wrong (footer byte 12); offset width is 7, must be 4 to 6, so its last bytes are no footer",
        ),
        (
            &of_width(0),
            "refused 105 at 12: footer offset width wrong (footer byte 12); by its footer it is an index of loose files or of patches",
        ),
        (
            &with(&good, end - 1, good[end - 1] ^ 1),
            "refused 3: footer hash wrong; its footer is damaged",
        ),
        (
            &good[4096..],
            "refused 5: file length wrong; by its footer it has 12388 bytes, and 8292 were found",
        ),
    ] {
        expect_words(&folder, bytes, words);
    }
}

/// The bytes where what is wrong stands.
#[test]
fn words_of_pages() {
    let folder = folder("refusals_pages");
    let good = index(W4, 400, 0);
    // With the hash of page 1 of 3 set right again.
    let rehashed = |at: usize, byte: u8| {
        let mut file = IndexFile::new(W4, &list(W4, 400, 0));
        file.bytes[at] = byte;
        file.fix_page_hash(1);
        file.bytes
    };
    for (bytes, words) in [
        (
            with(&good, 5000, 77),
            "refused 6 at 1: page hash wrong (page 1); that page stands at bytes 4096 to 8191, its hash at bytes 12344 to 12351: fetch",
        ),
        (
            rehashed(2 * 4096 - 1, 1),
            "refused 7 at 1: padding not zero (page 1); that page stands at bytes 4096 to 8191: fetch",
        ),
        (
            rehashed(4096 + 24 + 7, 0),
            "refused 8 at 171: key not above the one before (entry 171); its key stands at bytes 4120 to 4135: fetch",
        ),
        (
            with(&good, 3 * 4096 + 3, 77),
            "refused 9 at 0: stored last key wrong (page 0); that page stands at bytes 0 to 4095, its stored last key at bytes 12288 to 12303: fetch",
        ),
    ] {
        expect_words(&folder, &bytes, words);
    }
}

/// A file of 30 GB is refused without being read whole.
#[test]
fn judged_before_it_is_read() {
    let folder = folder("index_large");
    let file = File::create(folder.join("large")).expect("it can be made");
    file.set_len(30_000_000_000).expect("it is sparse");
    for command in ["check", "list", "info"] {
        let refused = run_in_2_gb(&folder, ["index", command, "large"]);
        assert_eq!(refused.status, 2, "{}", refused.errors);
        assert!(
            refused.errors.contains("refused 104 at 11"),
            "{}",
            refused.errors
        );
    }
    let good = index(W4, 171, 0);
    let footer = &good[good.len() - 28..];
    file.write_all_at(footer, 30_000_000_000 - 28)
        .expect("it can be written");
    let refused = run_in_2_gb(&folder, ["index", "check", "large"]);
    refused.expect(
        2,
        "refused\tlarge\t5\t0\n",
        &["by its footer it has 8268 bytes, and 30000000000 were found"],
    );
    // As standard input too: a file is judged by its ends, wherever it comes from.
    let refused = run_from_file(&folder, "large", 0, ["index", "check", "-"]);
    let words = ["by its footer it has 8268 bytes, and 30000000000 were found"];
    refused.expect(2, "refused\t-\t5\t0\n", &words);
    fs::remove_file(folder.join("large")).expect("it goes");
}

/// Standard input is read from where it stands.
#[test]
fn standard_input_that_is_a_file() {
    let folder = folder("index_standard_input");
    let good = index(W4, 171, 0);
    put(&folder, "after", [b"12345", &good[..]].concat());
    let check = ["index", "check", "-"];
    run_from_file(&folder, "after", 5, check).expect(0, "ok\t-\t1\t4\t16\t171\t2\n", &[]);
    let words = ["by its footer it has 8268 bytes, and 8269 were found"];
    run_from_file(&folder, "after", 4, check).expect(2, "refused\t-\t5\t0\n", &words);
}

/// A stream has no end before it is read: it is read to a limit.
#[test]
fn a_stream_without_an_end() {
    let folder = folder("index_stream");
    let refused = run_in_2_gb(&folder, ["index", "check", "/dev/zero"]);
    let words = ["/dev/zero: it has more than 268435456 bytes, and no more is read of such a file"];
    refused.expect(2, "refused\t/dev/zero\t-\t-\n", &words);
}
