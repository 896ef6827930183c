//! BLTE envelopes by the second program.

use std::ops::Range;

use second::envelope::{content_length, envelope_key, open, open_into, with_table, without_table};
use second::md5;
use second::refusal::{self, Refusal};

/// The content of an envelope opened with its own key.
fn opened(file: &[u8]) -> Result<Vec<u8>, Refusal> {
    open(file, &envelope_key(file)?)
}

/// An envelope of three chunks, with the contents "one", none, and "three".
fn three() -> Vec<u8> {
    with_table(&[b"None".to_vec(), b"N".to_vec(), b"Nthree".to_vec()])
}

/// How opening the envelope of three is refused after an edit, with the key of what it then is.
#[track_caller]
fn expect_refused(number: u32, place: u64, edit: impl FnOnce(&mut Vec<u8>)) {
    let mut file = three();
    edit(&mut file);
    assert_eq!(opened(&file), Err(Refusal { number, place }));
}

/// Puts the right hash of a chunk, which stands at these bytes, in its row.
fn repair(file: &mut [u8], chunk: usize, at: Range<usize>) {
    let hash = md5::digest(&file[at]).unwrap();
    file[12 + 24 * chunk + 8..][..16].copy_from_slice(&hash);
}

#[test]
fn the_example_of_the_paper() {
    let file = b"BLTE\0\0\0\0NA";
    assert_eq!(without_table(b"NA"), file);
    assert_eq!(envelope_key(file), md5::digest(file));
    assert_eq!(opened(file), Ok(b"A".to_vec()));
}

#[test]
fn tables() {
    let one = with_table(&[b"NA".to_vec()]);
    assert_eq!(
        one[..20],
        *b"BLTE\0\0\0\x24\x0f\0\0\x01\0\0\0\x02\0\0\0\x01"
    );
    assert_eq!(one[20..36], md5::digest(b"NA").unwrap());
    assert_eq!(one[36..], *b"NA");
    assert_eq!(opened(&one), Ok(b"A".to_vec()));

    let three = three();
    assert_eq!(envelope_key(&three), md5::digest(&three[..84]));
    assert_eq!(opened(&three), Ok(b"onethree".to_vec()));
    assert_eq!(opened(&with_table(&[b"N".to_vec()])), Ok(Vec::new()));
}

#[test]
fn output() {
    let file = three();
    let key = envelope_key(&file).unwrap();
    assert_eq!(content_length(&file, &key), Ok(8));
    let mut output = *b"..........";
    let short = open_into(&file, &key, &mut output[..7]);
    assert_eq!(short, Err(refusal::CONTENT_OUTPUT_TOO_SHORT));
    assert_eq!(output, *b"..........");
    assert_eq!(open_into(&file, &key, &mut output), Ok(8));
    assert_eq!(output, *b"onethree..");
}

#[test]
fn no_envelope() {
    for length in 0..8 {
        assert_eq!(
            opened(&b"BLTE\0\0\0\0"[..length]),
            Err(refusal::NOT_AN_ENVELOPE)
        );
    }
    expect_refused(20, 0, |file| file[3] = b'F');
}

#[test]
fn headers() {
    for size in [1, 8, 11, 12, 35, 36, 83, 85, 108, u32::MAX] {
        expect_refused(21, 0, |file| {
            file[4..8].copy_from_slice(&size.to_be_bytes())
        });
    }
    expect_refused(21, 0, |file| file[8] = 0x10);
    expect_refused(21, 0, |file| file[9] = 1);
    expect_refused(21, 0, |file| file[11] = 2);
    expect_refused(21, 0, |file| file.truncate(83));
    expect_refused(21, 0, |file| file.truncate(9));
    // No chunk, and all else right.
    expect_refused(21, 0, |file| *file = with_table(&[]));
}

#[test]
fn sizes() {
    expect_refused(22, 0, |file| file.push(0));
    expect_refused(22, 0, |file| file.truncate(84));
    expect_refused(22, 0, |file| file[15] += 1);
    expect_refused(22, 0, |file| file[12] = 0xff);
    let empty = [b"N".to_vec(), Vec::new(), b"N".to_vec()];
    for chunks in [&empty[..2], &empty[1..], &empty[1..2], &empty] {
        expect_refused(22, 0, |file| *file = with_table(chunks));
    }
    assert_eq!(opened(&without_table(b"")), Err(refusal::CHUNK_SIZES));
}

#[test]
fn keys() {
    for file in [three(), without_table(b"NA")] {
        let key = envelope_key(&file).unwrap();
        let longer = [&key[..], &[0]].concat();
        let mut other = key;
        other[15] ^= 1;
        for wrong in [&key[..15], &longer, &other, &[]] {
            assert_eq!(open(&file, wrong), Err(refusal::ENVELOPE_KEY));
        }
    }
}

#[test]
fn chunks() {
    expect_refused(23, 0, |file| file[85] ^= 1);
    expect_refused(23, 1, |file| file[44] ^= 1);
    expect_refused(23, 2, |file| file[89] = b'Z');
    expect_refused(24, 1, |file| {
        file[88] = b'Z';
        repair(file, 1, 88..89);
    });
    // The mode of a chunk goes before its decoded size, and before all of the next.
    expect_refused(24, 0, |file| {
        file[84] = b'Z';
        repair(file, 0, 84..88);
        file[19] += 1;
        file[44] ^= 1;
    });
    expect_refused(25, 0, |file| file[19] += 1);
    expect_refused(25, 1, |file| file[43] = 1);
    expect_refused(25, 2, |file| file[64] = 1);
    assert_eq!(opened(&without_table(b"ZA")), Err(refusal::chunk_mode(0)));
}
