//! The exports that check a file and then search or write it, on any bytes. The wrapper makes these
//! calls only on files that passed the check.

#![allow(dead_code)] // Each test uses a part of it.

use dwarnizza::root::{PathRecord, Record};
use dwarnizza::{Reason, Refusal};
use dwarnizza_sys as ffi;

/// The words of an answer; none where what was sought is absent.
fn answered(call: impl FnOnce(&mut [u64; 8]) -> u32) -> Result<Option<[u64; 8]>, Refusal> {
    let mut words = [u64::MAX; 8];
    match call(&mut words) {
        0 => Ok(Some(words)),
        1 => Ok(None),
        2 => {
            let reason = Reason::from_number(words[0] as u32);
            Err(Refusal::new(reason.expect("it is a reason"), words[1]))
        }
        result => panic!("{result} is no result"),
    }
}

/// The length that a call says it wrote.
fn written(call: impl FnOnce(&mut [u64; 8]) -> u32) -> Result<usize, Refusal> {
    let words = answered(call)?;
    Ok(words.expect("it is never absent")[0] as usize)
}

/// The list of an index.
pub fn list(index: &[u8], output: &mut [u8]) -> Result<usize, Refusal> {
    let (room, length) = (output.as_mut_ptr(), output.len());
    // SAFETY: each pointer and length are those of one slice, and the slices do not overlap.
    written(|answer| unsafe {
        ffi::dwarnizza_index_list(index.as_ptr(), index.len(), room, length, answer)
    })
}

/// The content of an envelope.
pub fn open(file: &[u8], key: &[u8], output: &mut [u8]) -> Result<usize, Refusal> {
    // SAFETY: each pointer and length are those of one slice, and the output overlaps no other.
    written(|answer| unsafe {
        ffi::dwarnizza_envelope_open(
            file.as_ptr(),
            file.len(),
            key.as_ptr(),
            key.len(),
            output.as_mut_ptr(),
            output.len(),
            answer,
        )
    })
}

/// The record of a file number.
pub fn find(file: &[u8], id: u32, locale: u32, unwanted: u64) -> Result<Option<Record>, Refusal> {
    let (start, length) = (file.as_ptr(), file.len());
    let mut key = [0; 16];
    // SAFETY: pointer and length are those of one slice.
    let words = answered(|answer| unsafe {
        ffi::dwarnizza_root_find(start, length, id, locale, unwanted, &mut key, answer)
    })?;
    Ok(words.map(|words| Record {
        key,
        place: words[0] as usize,
    }))
}

/// What is said of many ids, as bytes.
pub fn find_many(
    file: &[u8],
    ids: &[u8],
    (locale, unwanted): (u32, u64),
    output: &mut [u8],
) -> Result<usize, Refusal> {
    // SAFETY: each pointer and length are those of one slice, and the output overlaps no other.
    written(|answer| unsafe {
        ffi::dwarnizza_root_find_many(
            file.as_ptr(),
            file.len(),
            ids.as_ptr(),
            ids.len(),
            locale,
            unwanted,
            output.as_mut_ptr(),
            output.len(),
            answer,
        )
    })
}

/// The record of a path, after seeing that the lent key keeps its bytes where there is none.
#[track_caller]
pub fn find_path(
    file: &[u8],
    path: &[u8],
    (locale, unwanted): (u32, u64),
) -> Result<Option<PathRecord>, Refusal> {
    let lent: [u8; 16] = *b"what was lent, 0";
    let mut key = lent;
    let (f, f_len, p, p_len) = (file.as_ptr(), file.len(), path.as_ptr(), path.len());
    // SAFETY: each pointer and length are those of one slice.
    let words = answered(|answer| unsafe {
        let key = &mut key;
        ffi::dwarnizza_root_find_path(f, f_len, p, p_len, locale, unwanted, key, answer)
    });
    if !matches!(words, Ok(Some(_))) {
        assert_eq!(key, lent, "the key was written");
    }
    Ok(words?.map(|[id, place, ..]| PathRecord {
        id: u32::try_from(id).expect("an id has 32 bits"),
        key,
        place: place as usize,
    }))
}

/// The words of a row.
pub fn row(text: &[u8], at: usize, separator: u32) -> Result<Option<[u64; 8]>, Refusal> {
    let (start, length) = (text.as_ptr(), text.len());
    // SAFETY: pointer and length are those of one slice.
    answered(|answer| unsafe { ffi::dwarnizza_worklist_row(start, length, at, separator, answer) })
}

/// The words of a field.
pub fn field(
    text: &[u8],
    at: usize,
    separator: u32,
    column: usize,
) -> Result<Option<[u64; 8]>, Refusal> {
    let (start, length) = (text.as_ptr(), text.len());
    // SAFETY: pointer and length are those of one slice.
    answered(|answer| unsafe {
        ffi::dwarnizza_worklist_field(start, length, at, separator, column, answer)
    })
}

/// The bytes that a field stands for.
pub fn unquoted(field: &[u8], output: &mut [u8]) -> Result<usize, Refusal> {
    let (room, length) = (output.as_mut_ptr(), output.len());
    // SAFETY: each pointer and length are those of one slice, and the slices do not overlap.
    written(|answer| unsafe {
        ffi::dwarnizza_worklist_unquoted(field.as_ptr(), field.len(), room, length, answer)
    })
}
