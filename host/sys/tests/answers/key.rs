use dwarnizza_sys::dwarnizza_key_text;

use crate::call::{Answer, answer, answered, refused};

/// The answer, and the key that was lent.
fn key_text(text: &[u8], key_length: u32) -> (Answer, [u8; 16]) {
    let mut key = [0xee; 16];
    let (start, length) = (text.as_ptr(), text.len());
    // SAFETY: pointer and length are those of one slice.
    let answer =
        answer(|answer| unsafe { dwarnizza_key_text(start, length, key_length, &mut key, answer) });
    (answer, key)
}

/// What the call leaves for a text of sevens of this length, the last of which may be another.
fn expected(key_length: u32, length: usize, last: u8) -> (Answer, [u8; 16]) {
    let mut key = [0xee; 16];
    let answer = if !(1..=16).contains(&key_length) {
        refused(11, 0)
    } else if length != 2 * key_length as usize {
        refused(60, 0)
    } else if last == b'g' {
        refused(61, length as u64 - 1)
    } else {
        key[..key_length as usize].fill(0x77);
        answered(key_length as usize)
    };
    (answer, key)
}

/// Every length of a text for every length of a key, all digits and with a fault at the end: the
/// bytes past the key stay, and all sixteen on refusal.
#[test]
fn each_call_writes_the_whole_answer() {
    // The greater ones are a right length in their lowest 8 or 16 bits.
    for key_length in (0..=255).chain([256 + 1, 256 + 16, 65536 + 16, u32::MAX]) {
        for length in 0..=40 {
            for last in [b'7', b'g'] {
                let mut text = vec![b'7'; length];
                if let Some(digit) = text.last_mut() {
                    *digit = last;
                }
                assert_eq!(
                    key_text(&text, key_length),
                    expected(key_length, length, last)
                );
            }
        }
    }
}
