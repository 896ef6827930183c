//! BLTE envelopes: the library against the second program.

mod compare;
mod raw;

use compare::{Tally, compare_outputs, in_library_terms, refusal_at};
use dwarnizza::envelope::CheckedEnvelope;
use dwarnizza::{Envelope, Reason, Refusal};
use forge::build::{BEFORE_ROWS, ROW};
use forge::random::Random;
use second::envelope::{with_table, without_table};

/// What both programs answer: the content, or a refusal. All three calls are compared.
#[track_caller]
fn compare(file: &[u8], key: &[u8], room: usize) -> Result<Vec<u8>, Refusal> {
    assert_eq!(
        Envelope::check(file, key).map(CheckedEnvelope::content_len),
        second::envelope::content_length(file, key).map_err(in_library_terms)
    );
    assert_eq!(Envelope::key_of(file), second_key(file));
    compare_outputs(
        room,
        |output| raw::open(file, key, output),
        |output| second::envelope::open_into(file, key, output).map_err(in_library_terms),
    )
}

fn second_key(file: &[u8]) -> Result<[u8; 16], Refusal> {
    second::envelope::envelope_key(file).map_err(in_library_terms)
}

/// The key of the file; one of no file where it has none.
fn key_of(file: &[u8]) -> [u8; 16] {
    second_key(file).unwrap_or([0x5e; 16])
}

/// Both programs open the file to this content, in outputs of all sizes.
#[track_caller]
fn expect_content(file: &[u8], content: &[u8]) {
    let key = key_of(file);
    let length = content.len();
    for room in [length, length + 1, length + 1000] {
        assert!(compare(file, &key, room).expect("the envelope is good") == content);
    }
    if length > 0 {
        for room in [0, length - 1] {
            let short = compare(file, &key, room);
            assert_eq!(short, Err(refusal_at(Reason::ContentOutputShort, 0)));
        }
    }
}

/// Both programs refuse the file, given its key, whatever the room.
#[track_caller]
fn expect_refused(file: &[u8], reason: Reason, place: usize) {
    for room in [0, file.len()] {
        let answer = compare(file, &key_of(file), room);
        assert_eq!(answer, Err(refusal_at(reason, place)));
    }
}

/// The chunk of a content.
fn plain(content: &[u8]) -> Vec<u8> {
    [b"N", content].concat()
}

/// Chunks of random contents of these lengths.
fn chunks(random: &mut Random, lengths: &[usize]) -> Vec<Vec<u8>> {
    lengths
        .iter()
        .map(|&length| plain(&random.bytes(length)))
        .collect()
}

/// The contents of chunks.
fn contents(chunks: &[Vec<u8>]) -> Vec<u8> {
    chunks
        .iter()
        .flat_map(|chunk| &chunk[1..])
        .copied()
        .collect()
}

/// Puts a number in four bytes.
fn put(file: &mut [u8], at: usize, number: u32) {
    file[at..at + 4].copy_from_slice(&number.to_be_bytes());
}

#[test]
fn the_example_of_the_paper() {
    expect_content(b"BLTE\0\0\0\0NA", b"A");
}

#[test]
fn without_a_table() {
    let mut random = Random::of_test();
    for length in (0..200).chain([4095, 4096, 100_000]) {
        let content = random.bytes(length);
        expect_content(&without_table(&plain(&content)), &content);
    }
}

#[test]
fn with_tables() {
    let mut random = Random::of_test();
    let block: Vec<usize> = (0..150).collect();
    let lengths: [&[usize]; 12] = [
        &[0],
        &[1],
        &[1000],
        &[0, 0],
        &[50, 50],
        &[0, 300],
        &[300, 0],
        &[64, 64, 64],
        &[1, 0, 2000],
        &[5, 1000, 0, 63],
        &block,
        &[4095; 200],
    ];
    for lengths in lengths {
        let chunks = chunks(&mut random, lengths);
        expect_content(&with_table(&chunks), &contents(&chunks));
    }
}

/// A count that needs all three of its bytes, and a fault at the end.
#[test]
fn seventy_thousand_chunks() {
    let mut chunks: Vec<_> = (0..70_000_u32)
        .map(|chunk| plain(&chunk.to_le_bytes()[..chunk as usize % 5]))
        .collect();
    expect_content(&with_table(&chunks), &contents(&chunks));
    chunks[69_999][0] = b'Z';
    expect_refused(&with_table(&chunks), Reason::ChunkMode, 69_999);
}

/// Encoded sizes that add up to the rest only modulo 2^32.
#[test]
fn sizes_do_not_wrap() {
    let chunks = [plain(b"one"), plain(b"two")];
    let mut file = with_table(&chunks);
    for (first, second) in [(u32::MAX, 9), (9, u32::MAX), (1 << 31, (1 << 31) + 8)] {
        put(&mut file, BEFORE_ROWS, first);
        put(&mut file, BEFORE_ROWS + ROW, second);
        expect_refused(&file, Reason::ChunkSizes, 0);
    }
}

/// Of faults in two chunks, the one in the earlier chunk is told, whatever their numbers.
#[test]
fn chunk_by_chunk() {
    let faults = [Reason::ChunkHash, Reason::ChunkMode, Reason::DecodedSize];
    for count in 1..=5 {
        for (first, second) in (0..count).flat_map(|i| (i..count).map(move |j| (i, j))) {
            for early in faults {
                for late in faults {
                    let mut chunks = vec![plain(b"content"); count];
                    for (chunk, fault) in [(first, early), (second, late)] {
                        if fault == Reason::ChunkMode {
                            chunks[chunk][0] = b'Z';
                        }
                    }
                    let mut file = with_table(&chunks);
                    for (chunk, fault) in [(first, early), (second, late)] {
                        let row = BEFORE_ROWS + ROW * chunk;
                        match fault {
                            Reason::ChunkHash => file[row + 23] = !file[row + 23],
                            Reason::DecodedSize => put(&mut file, row + 4, 8),
                            _ => (),
                        }
                    }
                    let told = match first == second {
                        // Twice the same byte turned is a hash that is right again.
                        true if early == late && early == Reason::ChunkHash => continue,
                        true => early.min(late),
                        false => early,
                    };
                    expect_refused(&file, told, first);
                }
            }
        }
    }
}

/// Keys of every length, and the right key with each of its bits turned.
#[test]
fn keys() {
    let mut random = Random::of_test();
    let chunks = chunks(&mut random, &[9, 200]);
    for file in [with_table(&chunks), without_table(&chunks[0])] {
        let key = key_of(&file);
        let long = [key, key, key].concat();
        let wrong = Err(refusal_at(Reason::EnvelopeKey, 0));
        for length in (0..=48).filter(|&length| length != 16) {
            assert_eq!(compare(&file, &long[..length], file.len()), wrong);
        }
        for bit in 0..128 {
            let mut other = key;
            other[bit / 8] ^= 1 << (bit % 8);
            assert_eq!(compare(&file, &other, file.len()), wrong);
        }
    }
}

/// Each byte of small envelopes with each value, and each of their starts, with the key of what the
/// file then is and with the key of what it was.
#[test]
fn every_byte() {
    let mut tally = Tally::new("files");
    let files = [
        without_table(&plain(b"content")),
        with_table(&[plain(b"content")]),
        with_table(&[plain(b"one"), plain(b""), plain(b"three")]),
    ];
    for good in files {
        let old_key = key_of(&good);
        for length in 0..good.len() {
            let file = &good[..length];
            tally.add(&compare(file, &key_of(file), 20));
            tally.add(&compare(file, &old_key, 20));
        }
        for at in 0..good.len() {
            let mut file = good.clone();
            for value in 0..=u8::MAX {
                file[at] = value;
                tally.add(&compare(&file, &key_of(&file), 20));
                tally.add(&compare(&file, &old_key, 20));
            }
        }
    }
    tally.print([20, 21, 22, 23, 24, 25, 27]);
}
