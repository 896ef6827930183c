use dwarnizza_sys::{dwarnizza_envelope_key, dwarnizza_envelope_length, dwarnizza_envelope_open};

use crate::call::{Answer, answer, answered, refused, two_inputs};

fn open(file: &[u8], key: &[u8], output: &mut [u8]) -> Answer {
    // SAFETY: each pointer and length are those of one slice, and the output overlaps no other.
    answer(|answer| unsafe {
        dwarnizza_envelope_open(
            file.as_ptr(),
            file.len(),
            key.as_ptr(),
            key.len(),
            output.as_mut_ptr(),
            output.len(),
            answer,
        )
    })
}

fn length(file: &[u8], key: &[u8]) -> Answer {
    two_inputs(dwarnizza_envelope_length, file, key)
}

/// The answer, and the key that was lent.
fn key_of(file: &[u8]) -> (Answer, [u8; 16]) {
    let mut key = [0xee; 16];
    let (start, length) = (file.as_ptr(), file.len());
    // SAFETY: pointer and length are those of one slice.
    let answer =
        answer(|answer| unsafe { dwarnizza_envelope_key(start, length, &mut key, answer) });
    (answer, key)
}

#[test]
fn each_call_writes_the_whole_answer() {
    let good = second::envelope::with_table(&[b"Non".to_vec(), b"Ne".to_vec()]);
    let bad = second::envelope::with_table(&[b"Non".to_vec(), b"Ze".to_vec()]);
    let cut = &good[..good.len() - 1];
    let [good_key, bad_key] =
        [&good, &bad].map(|file| second::envelope::envelope_key(file).unwrap());

    let mut output = [0xee; 4];
    let room = &mut output[..2];
    for (file, key, number, place) in [
        (cut, &good_key, 22, 0),
        (&good, &bad_key, 27, 0),
        (&bad, &bad_key, 24, 1),
    ] {
        assert_eq!(open(file, key, room), refused(number, place));
        assert_eq!(length(file, key), refused(number, place));
    }
    assert_eq!(open(&good, &good_key, room), refused(26, 0));
    assert_eq!(output, [0xee; 4]);

    assert_eq!(length(&good, &good_key), answered(3));
    assert_eq!(open(&good, &good_key, &mut output), answered(3));
    assert_eq!(output, *b"one\xee");

    assert_eq!(key_of(&good), ((0, [0; 8]), good_key));
    assert_eq!(key_of(cut), (refused(22, 0), [0xee; 16]));
}
