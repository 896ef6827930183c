//! The exports over slices: every pointer and length of a call are those of one slice.

use dwarnizza_sys as ffi;

use crate::answer::{Search, Words, answered, searched};
use crate::index::Settings;
use crate::refusal::Refusal;

type Answered = Result<Words, Refusal>;
type Searched = Result<Search, Refusal>;

/// An export that takes one input.
type OneInput = unsafe extern "C" fn(*const u8, usize, &mut Words) -> u32;

fn one_input(export: OneInput, input: &[u8]) -> impl FnOnce(&mut Words) -> u32 {
    // SAFETY: pointer and length are those of one slice.
    move |answer| unsafe { export(input.as_ptr(), input.len(), answer) }
}

/// An export that takes one input and a number.
type Numbered<N> = unsafe extern "C" fn(*const u8, usize, N, &mut Words) -> u32;

fn numbered<N>(export: Numbered<N>, input: &[u8], number: N) -> impl FnOnce(&mut Words) -> u32 {
    // SAFETY: pointer and length are those of one slice.
    move |answer| unsafe { export(input.as_ptr(), input.len(), number, answer) }
}

/// An export that takes two inputs.
type TwoInputs = unsafe extern "C" fn(*const u8, usize, *const u8, usize, &mut Words) -> u32;

fn two_inputs(export: TwoInputs, file: &[u8], key: &[u8]) -> impl FnOnce(&mut Words) -> u32 {
    // SAFETY: each pointer and length are those of one slice.
    move |answer| unsafe { export(file.as_ptr(), file.len(), key.as_ptr(), key.len(), answer) }
}

/// An export that takes one input and fills an output.
type Filling = unsafe extern "C" fn(*const u8, usize, *mut u8, usize, &mut Words) -> u32;

fn filling(export: Filling, input: &[u8], output: &mut [u8]) -> impl FnOnce(&mut Words) -> u32 {
    // SAFETY: each pointer and length are those of one slice, and no other borrows the output.
    move |answer| unsafe {
        export(
            input.as_ptr(),
            input.len(),
            output.as_mut_ptr(),
            output.len(),
            answer,
        )
    }
}

/// An export that takes one input and writes a digest or a key of 16 bytes.
type Digesting = unsafe extern "C" fn(*const u8, usize, &mut [u8; 16], &mut Words) -> u32;

fn digesting(export: Digesting, input: &[u8]) -> Result<[u8; 16], Refusal> {
    let mut digest = [0; 16];
    // SAFETY: pointer and length are those of one slice.
    answered(|answer| unsafe { export(input.as_ptr(), input.len(), &mut digest, answer) })?;
    Ok(digest)
}

/// The state of MD5: words, pending bytes and count.
pub type State = ([u32; 4], [u8; 64], u64);

pub fn md5(data: &[u8]) -> Result<[u8; 16], Refusal> {
    digesting(ffi::dwarnizza_md5, data)
}

pub fn md5_start((words, pending, count): &mut State) -> Answered {
    answered(|answer| ffi::dwarnizza_md5_start(words, pending, count, answer))
}

pub fn md5_update(part: &[u8], (words, pending, count): &mut State) -> Answered {
    let (data, length) = (part.as_ptr(), part.len());
    // SAFETY: pointer and length are those of one slice, and no other borrows the state.
    answered(|answer| unsafe {
        ffi::dwarnizza_md5_update(data, length, words, pending, count, answer)
    })
}

pub fn md5_finish((words, pending, count): &State, digest: &mut [u8; 16]) -> Answered {
    answered(|answer| ffi::dwarnizza_md5_finish(words, pending, *count, digest, answer))
}

pub fn key_text(text: &[u8], key_length: u8, key: &mut [u8; 16]) -> Answered {
    let (data, length) = (text.as_ptr(), text.len());
    let key_length = key_length.into();
    // SAFETY: pointer and length are those of one slice.
    answered(|answer| unsafe { ffi::dwarnizza_key_text(data, length, key_length, key, answer) })
}

pub fn index_check(index: &[u8]) -> Answered {
    answered(one_input(ffi::dwarnizza_index_check, index))
}

pub fn index_settings(index: &[u8]) -> Answered {
    answered(one_input(ffi::dwarnizza_index_settings, index))
}

pub fn index_footer(index: &[u8]) -> Answered {
    answered(one_input(ffi::dwarnizza_index_footer, index))
}

pub fn index_loose(index: &[u8]) -> Searched {
    searched(one_input(ffi::dwarnizza_index_loose, index))
}

pub fn index_bound(index: &[u8]) -> Answered {
    answered(one_input(ffi::dwarnizza_index_bound, index))
}

pub fn index_entry(index: &[u8], page: u64, slot: u64) -> Searched {
    let (data, length) = (index.as_ptr(), index.len());
    // SAFETY: pointer and length are those of one slice.
    searched(|answer| unsafe { ffi::dwarnizza_index_entry(data, length, page, slot, answer) })
}

pub fn index_page(index: &[u8], page: u64) -> Searched {
    searched(numbered(ffi::dwarnizza_index_page, index, page))
}

pub fn index_lookup(index: &[u8], key: &[u8]) -> Searched {
    searched(two_inputs(ffi::dwarnizza_index_lookup, index, key))
}

pub fn index_list(index: &[u8], output: &mut [u8]) -> Answered {
    answered(filling(ffi::dwarnizza_index_list, index, output))
}

pub fn index_listing(input: &[u8], output: &mut [u8]) -> Answered {
    answered(filling(ffi::dwarnizza_index_listing, input, output))
}

pub fn index_written_length(settings: Settings, list: &[u8]) -> Answered {
    let Settings {
        version,
        offset_width,
        key_length,
    } = settings;
    // SAFETY: pointer and length are those of one slice.
    answered(|answer| unsafe {
        ffi::dwarnizza_index_written_length(
            version.into(),
            offset_width.into(),
            key_length.into(),
            list.as_ptr(),
            list.len(),
            answer,
        )
    })
}

pub fn index_write(settings: Settings, list: &[u8], output: &mut [u8]) -> Answered {
    let Settings {
        version,
        offset_width,
        key_length,
    } = settings;
    // SAFETY: each pointer and length are those of one slice, and no other borrows the output.
    answered(|answer| unsafe {
        ffi::dwarnizza_index_write(
            version.into(),
            offset_width.into(),
            key_length.into(),
            list.as_ptr(),
            list.len(),
            output.as_mut_ptr(),
            output.len(),
            answer,
        )
    })
}

/// The numbers of an entry are its size, archive and offset.
pub fn list_put(
    settings: Settings,
    key: &[u8],
    (size, archive, offset): (u32, u32, u64),
    output: &mut [u8],
) -> Answered {
    // SAFETY: each pointer and length are those of one slice, and no other borrows the output.
    answered(|answer| unsafe {
        ffi::dwarnizza_list_put(
            settings.version.into(),
            settings.offset_width.into(),
            settings.key_length.into(),
            key.as_ptr(),
            key.len(),
            size,
            archive,
            offset,
            output.as_mut_ptr(),
            output.len(),
            answer,
        )
    })
}

pub fn envelope_key(file: &[u8]) -> Result<[u8; 16], Refusal> {
    digesting(ffi::dwarnizza_envelope_key, file)
}

pub fn envelope_length(file: &[u8], key: &[u8]) -> Answered {
    answered(two_inputs(ffi::dwarnizza_envelope_length, file, key))
}

pub fn envelope_open(file: &[u8], key: &[u8], output: &mut [u8]) -> Answered {
    // SAFETY: each pointer and length are those of one slice, and no other borrows the output.
    answered(|answer| unsafe {
        ffi::dwarnizza_envelope_open(
            file.as_ptr(),
            file.len(),
            key.as_ptr(),
            key.len(),
            output.as_mut_ptr(),
            output.len(),
            answer,
        )
    })
}

pub fn encoding_check(file: &[u8]) -> Answered {
    answered(one_input(ffi::dwarnizza_encoding_check, file))
}

pub fn encoding_find_content(file: &[u8], key: &[u8]) -> Searched {
    searched(two_inputs(ffi::dwarnizza_encoding_find_content, file, key))
}

pub fn encoding_find_encoding(file: &[u8], key: &[u8]) -> Searched {
    searched(two_inputs(ffi::dwarnizza_encoding_find_encoding, file, key))
}

pub fn encoding_spec(file: &[u8], number: u32) -> Answered {
    answered(numbered(ffi::dwarnizza_encoding_spec, file, number))
}

pub fn root_check(file: &[u8]) -> Answered {
    answered(one_input(ffi::dwarnizza_root_check, file))
}

pub fn root_find(file: &[u8], id: u32, locale: u32, unwanted: u64, key: &mut [u8; 16]) -> Searched {
    let (data, length) = (file.as_ptr(), file.len());
    // SAFETY: pointer and length are those of one slice.
    searched(|answer| unsafe {
        ffi::dwarnizza_root_find(data, length, id, locale, unwanted, key, answer)
    })
}

/// The ids are numbers of four bytes, big-endian.
pub fn root_find_many(
    file: &[u8],
    ids: &[u8],
    locale: u32,
    unwanted: u64,
    output: &mut [u8],
) -> Answered {
    // SAFETY: each pointer and length are those of one slice, and no other borrows the output.
    answered(|answer| unsafe {
        ffi::dwarnizza_root_find_many(
            file.as_ptr(),
            file.len(),
            ids.as_ptr(),
            ids.len(),
            locale,
            unwanted,
            output.as_mut_ptr(),
            output.len(),
            answer,
        )
    })
}

pub fn name_hash(path: &[u8]) -> Answered {
    answered(one_input(ffi::dwarnizza_name_hash, path))
}

pub fn root_find_path(
    file: &[u8],
    path: &[u8],
    locale: u32,
    unwanted: u64,
    key: &mut [u8; 16],
) -> Searched {
    // SAFETY: each pointer and length are those of one slice.
    searched(|answer| unsafe {
        ffi::dwarnizza_root_find_path(
            file.as_ptr(),
            file.len(),
            path.as_ptr(),
            path.len(),
            locale,
            unwanted,
            key,
            answer,
        )
    })
}

/// The files are root, encoding file and index.
pub fn resolve(files: [&[u8]; 3], id: u32, locale: u32, unwanted: u64) -> Searched {
    let [root, encoding, index] = files;
    // SAFETY: each pointer and length are those of one slice.
    searched(|answer| unsafe {
        ffi::dwarnizza_resolve(
            root.as_ptr(),
            root.len(),
            encoding.as_ptr(),
            encoding.len(),
            index.as_ptr(),
            index.len(),
            id,
            locale,
            unwanted,
            answer,
        )
    })
}

pub fn worklist_row(text: &[u8], at: usize, separator: u32) -> Searched {
    let (data, length) = (text.as_ptr(), text.len());
    // SAFETY: pointer and length are those of one slice.
    searched(|answer| unsafe { ffi::dwarnizza_worklist_row(data, length, at, separator, answer) })
}

pub fn worklist_field(text: &[u8], at: usize, separator: u32, column: usize) -> Searched {
    let (data, length) = (text.as_ptr(), text.len());
    // SAFETY: pointer and length are those of one slice.
    searched(|answer| unsafe {
        ffi::dwarnizza_worklist_field(data, length, at, separator, column, answer)
    })
}

pub fn worklist_unquoted(field: &[u8], output: &mut [u8]) -> Answered {
    answered(filling(ffi::dwarnizza_worklist_unquoted, field, output))
}

pub fn file_number(text: &[u8]) -> Searched {
    searched(one_input(ffi::dwarnizza_file_number, text))
}
