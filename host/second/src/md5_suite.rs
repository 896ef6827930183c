//! What the program `md5_suite` prints: RFC 1321's suite, then a range of lengths, whole and cut.

use std::fmt::Write;
use std::ops::RangeInclusive;

use crate::md5::{State, digest, hex};

/// RFC 1321's suite (its appendix A.5): each string with its digest.
pub const RFC_1321: [(&str, &str); 7] = [
    ("", "d41d8cd98f00b204e9800998ecf8427e"),
    ("a", "0cc175b9c0f1b6a831c399e269772661"),
    ("abc", "900150983cd24fb0d6963f7d28e17f72"),
    ("message digest", "f96b697d7cb7938d525a2f31aaf161d0"),
    (
        "abcdefghijklmnopqrstuvwxyz",
        "c3fcd3d76192e4007dfb496cca67e13b",
    ),
    (
        "ABCDEFGHIJKLMNOPQRSTUVWXYZabcdefghijklmnopqrstuvwxyz0123456789",
        "d174ab98d277d9f5a5611c2c9f419d9f",
    ),
    (
        "12345678901234567890123456789012345678901234567890123456789012345678901234567890",
        "57edf4a22be3c955ac49da2e2107b67a",
    ),
];

const SHORT_LENGTHS: RangeInclusive<usize> = 0..=200;
const LONG_LENGTHS: [usize; 4] = [1000, 4096, 65_536, 1_000_000];
const PART_SIZES: [usize; 5] = [1, 63, 64, 65, 1000];

/// The suite's data: byte i is (i * 31 + i / 256 * 7 + 5) % 256.
pub fn data(length: usize) -> Vec<u8> {
    (0..length)
        .map(|i| (i * 31 + i / 256 * 7 + 5) as u8)
        .collect()
}

/// The suite's text, with the digests that `whole` gives for data in one piece and `cut` for data
/// in parts of a size.
pub fn text(whole: impl Fn(&[u8]) -> [u8; 16], cut: impl Fn(&[u8], usize) -> [u8; 16]) -> String {
    let [.., longest] = LONG_LENGTHS;
    let data = data(longest);
    let mut lines = String::new();
    let mut line = |name: String, digest| {
        writeln!(lines, "{name} {}", hex(digest)).expect("a string takes every line");
    };
    for (string, _) in RFC_1321 {
        line(format!("MD5 (\"{string}\") ="), whole(string.as_bytes()));
    }
    for length in SHORT_LENGTHS.chain(LONG_LENGTHS) {
        line(length.to_string(), whole(&data[..length]));
    }
    for length in LONG_LENGTHS {
        for size in PART_SIZES {
            line(format!("{length} by {size}"), cut(&data[..length], size));
        }
    }
    lines
}

/// The suite's text by the second program.
pub fn second() -> String {
    let whole = |data: &[u8]| digest(data).expect("the suite is far below the limit");
    let cut = |data: &[u8], size| {
        let mut state = State::new();
        for part in data.chunks(size) {
            state
                .update(part)
                .expect("the suite is far below the limit");
        }
        state.finish()
    };
    text(whole, cut)
}
