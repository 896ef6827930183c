//! MD5, in one call and in parts.

use std::hint::black_box;

use dwarnizza_sys::{dwarnizza_md5_finish, dwarnizza_md5_start, dwarnizza_md5_update};
use fuzz::export::{ANSWERED, Given, MD5};
use second::md5::State;
use second::md5_suite;

use crate::measure::Contender;
use crate::table::{Call, Table, Timed};

/// How many bytes go into one state in parts.
const STREAM: usize = 1 << 20;

/// One that hashes.
pub trait Hasher {
    /// The digest of data in one piece.
    fn digest(&self, data: &[u8]) -> [u8; 16];

    /// The digest of data in parts of a size.
    fn digest_of_parts(&self, data: &[u8], size: usize) -> [u8; 16];
}

/// Prints the lines.
pub fn measure(table: &mut Table) {
    let data = md5_suite::data(STREAM);
    table.calls([64, 4 << 10, 1 << 20].map(|length| in_one_call(&data[..length])));
    for size in [1, 64, 1 << 10] {
        in_parts(table, &data, size);
    }
}

fn in_one_call(data: &[u8]) -> Call<'_> {
    Call {
        export: &MD5,
        kind: "",
        size: data.len(),
        unit: "B",
        given: Box::new(move |_| Given::new([data], [])),
        result: ANSWERED,
        output: 16,
        hashed: vec![data],
    }
}

/// Times the digest in parts of a size, after seeing that all give the same.
fn in_parts(table: &mut Table, data: &[u8], size: usize) {
    let openssl = table.openssl().to_vec();
    let digests = openssl.iter().map(|way| way.digest_of_parts(data, size));
    let mut digests = digests.chain([by_second(data, size)]);
    assert!(digests.all(|digest| digest == by_library(data, size)));
    let of_openssl = openssl
        .iter()
        .map(|way| repeated(data, |data| way.digest_of_parts(data, size)));
    table.line(Timed {
        name: "`md5_start`, `md5_update`, `md5_finish`: 1 MiB in parts".to_string(),
        size,
        unit: "B",
        library: repeated(data, |data| by_library(data, size)),
        second: repeated(data, |data| by_second(data, size)),
        openssl: of_openssl.collect(),
    });
}

/// Hashes the data as often as the contender is told.
fn repeated<'a>(data: &'a [u8], task: impl Fn(&[u8]) -> [u8; 16] + 'a) -> Contender<'a> {
    Box::new(move |times| {
        for _ in 0..times {
            black_box(task(black_box(data)));
        }
    })
}

fn by_library(data: &[u8], size: usize) -> [u8; 16] {
    let (mut words, mut pending, mut count) = ([0; 4], [0; 64], 0);
    let (mut digest, mut answer) = ([0; 16], [0; 8]);
    dwarnizza_md5_start(&mut words, &mut pending, &mut count, &mut answer);
    for part in data.chunks(size) {
        let (at, length) = (part.as_ptr(), part.len());
        // SAFETY: pointer and length are those of one slice.
        unsafe {
            dwarnizza_md5_update(
                at,
                length,
                &mut words,
                &mut pending,
                &mut count,
                &mut answer,
            )
        };
    }
    dwarnizza_md5_finish(&words, &pending, count, &mut digest, &mut answer);
    digest
}

fn by_second(data: &[u8], size: usize) -> [u8; 16] {
    let mut state = State::new();
    for part in data.chunks(size) {
        state.update(part).expect("the data is below the limit");
    }
    state.finish()
}
