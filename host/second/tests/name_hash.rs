//! Name hashes by the second program.

use second::name_hash::{hashlittle2, name_hash};
use second::refusal;

/// A text, the starting values of c and b, and the results c and b.
type Printed = (&'static [u8], [u32; 2], (u32, u32));

/// What lookup3.c's own test (driver5) prints.
const PRINTED: [Printed; 6] = [
    (b"", [0, 0], (0xdead_beef, 0xdead_beef)),
    (b"", [0, 0xdead_beef], (0xbd5b_7dde, 0xdead_beef)),
    (b"", [0xdead_beef, 0xdead_beef], (0x9c09_3ccd, 0xbd5b_7dde)),
    (FOUR_SCORE, [0, 0], (0x1777_0551, 0xce72_26e6)),
    (FOUR_SCORE, [0, 1], (0xe360_7cae, 0xbd37_1de4)),
    (FOUR_SCORE, [1, 0], (0xcd62_8161, 0x6cbe_a4b3)),
];

const FOUR_SCORE: &[u8] = b"Four score and seven years ago";

#[test]
fn jenkins_values() {
    for (text, [start_c, start_b], results) in PRINTED {
        assert_eq!(hashlittle2(text, start_c, start_b), results);
    }
}

/// Of single bytes only a to z and the slash are hashed as another.
#[test]
fn bytes_that_change() {
    for byte in 0..=u8::MAX {
        let hashed = match byte {
            b'a'..=b'z' => byte - 32,
            b'/' => 92,
            _ => byte,
        };
        let (c, b) = hashlittle2(&[hashed], 0, 0);
        let expected = u64::from(c) << 32 | u64::from(b);
        assert_eq!(name_hash(&[byte]), Ok(expected), "{byte}");
    }
}

#[test]
fn the_longest_path() {
    assert!(name_hash(&[b'a'; 1024]).is_ok());
    assert_eq!(name_hash(&[b'a'; 1025]), Err(refusal::PATH_LENGTH));
}
