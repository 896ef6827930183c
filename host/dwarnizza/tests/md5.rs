//! MD5 of the library against the second program.

mod compare;

use std::array;

use compare::in_library_terms;
use dwarnizza::{Md5, Reason, Refusal, md5};
use forge::random::Random;
use second::md5::{State, digest, hex};
use second::md5_suite;

/// The most bytes that a state takes.
const LIMIT: u64 = 1 << 48;

const LIMIT_PASSED: Refusal = Refusal::new(Reason::HashLimit, 0);

/// Cuts `data` into random parts, empty ones among them.
fn random_parts<'a>(random: &mut Random, data: &'a [u8]) -> Vec<&'a [u8]> {
    let most = [1, 64, 200, 5000][random.up_to(3)].min(data.len());
    let mut parts = Vec::new();
    let mut rest = data;
    while !rest.is_empty() {
        let (part, after) = rest.split_at(random.up_to(most).min(rest.len()));
        parts.push(part);
        rest = after;
    }
    parts.push(rest);
    parts
}

/// The library's digest of `data` by one call, checked against the second program's and against
/// both programs' digests of `data` in random parts.
fn check_digest(random: &mut Random, data: &[u8]) {
    let length = data.len();
    let expected = digest(data).unwrap();
    assert_eq!(md5(data), Ok(expected), "{length} bytes in one call");

    let mut library = Md5::new();
    let mut second = State::new();
    let parts = random_parts(random, data);
    for part in &parts {
        library.update(part).unwrap();
        second.update(part).unwrap();
    }
    let lengths = || parts.iter().map(|part| part.len()).collect::<Vec<_>>();
    assert_eq!(library.finish(), expected, "library, parts {:?}", lengths());
    assert_eq!(second.finish(), expected, "second, parts {:?}", lengths());
}

#[test]
fn rfc_1321_strings() {
    for (string, digest) in md5_suite::RFC_1321 {
        assert_eq!(hex(md5(string.as_bytes()).unwrap()), digest, "{string:?}");
    }
}

#[test]
fn suite_text() {
    let cut = |data: &[u8], size| {
        let mut state = Md5::new();
        for part in data.chunks(size) {
            state.update(part).unwrap();
        }
        state.finish()
    };
    let text = md5_suite::text(|data| md5(data).unwrap(), cut);
    for (library, second) in text.lines().zip(md5_suite::second().lines()) {
        assert_eq!(library, second);
    }
}

#[test]
fn every_short_length() {
    let mut random = Random::of_test();
    for length in 0..=300 {
        let data = random.bytes(length);
        for _ in 0..4 {
            check_digest(&mut random, &data);
        }
    }
}

#[test]
fn long_lengths() {
    let mut random = Random::of_test();
    for _ in 0..20 {
        let length = random.up_to(1 << 20);
        let data = random.bytes(length);
        check_digest(&mut random, &data);
    }
}

#[test]
fn a_finish_leaves_the_state() {
    let mut state = Md5::new();
    state.update(b"message").unwrap();
    let before = state.to_parts();
    assert_eq!(state.finish(), md5(b"message").unwrap());
    assert_eq!(state.to_parts(), before);
    state.update(b" digest").unwrap();
    assert_eq!(state.finish(), md5(b"message digest").unwrap());
}

#[test]
fn the_limit() {
    let mut random = Random::of_test();
    let cases = [
        (LIMIT - 65, 65, true),
        (LIMIT - 65, 66, false),
        (LIMIT - 1, 0, true),
        (LIMIT - 1, 1, true),
        (LIMIT - 1, 2, false),
        (LIMIT, 0, true),
        (LIMIT, 1, false),
        (LIMIT + 1, 0, false),
        (LIMIT + 1, 1, false),
        (u64::MAX, 0, false),
        (u64::MAX, 1, false),
        (u64::MAX, 1000, false),
    ];
    for (count, length, passes) in cases {
        let (mut library, mut second) = forged(&mut random, count);
        let before = library.to_parts();
        let part = random.bytes(length);
        let answer = library.update(&part);
        assert_eq!(second.update(&part).is_ok(), passes);
        if passes {
            assert_eq!(answer, Ok(()), "{count} and {length}");
        } else {
            assert_eq!(answer, Err(LIMIT_PASSED), "{count} and {length}");
            assert_eq!(library.to_parts(), before, "{count} and {length}");
        }
        check_same(&library, &second);
    }
}

#[test]
fn forged_states() {
    let mut random = Random::of_test();
    for round in 0..5000 {
        let count = match round % 4 {
            0 => random.word(),
            1 => random.word() % LIMIT,
            2 => random.word() % 200,
            _ => LIMIT - random.word() % 200,
        };
        let (mut library, mut second) = forged(&mut random, count);
        check_same(&library, &second);
        for _ in 0..4 {
            let length = random.up_to(200);
            let part = random.bytes(length);
            let refused = second.update(&part).map_err(in_library_terms);
            assert_eq!(library.update(&part), refused, "{count} and {length}");
            check_same(&library, &second);
        }
    }
}

/// One state for both, with random words and pending bytes.
fn forged(random: &mut Random, count: u64) -> (Md5, State) {
    let words = array::from_fn(|_| random.word() as u32);
    let pending = random.array();
    let second = State {
        words,
        pending,
        count,
    };
    (Md5::from_parts(words, pending, count), second)
}

/// Both states stand for the same, and finish with the same digest.
fn check_same(library: &Md5, second: &State) {
    let (words, pending, count) = library.to_parts();
    let held = (count % 64) as usize;
    assert_eq!(words, second.words);
    assert_eq!(pending[..held], second.pending[..held]);
    assert_eq!(count, second.count);
    assert_eq!(library.finish(), second.finish());
}
