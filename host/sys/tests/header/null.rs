//! Where a length is 0 its pointer may be NULL: every export answers as it does for any other input
//! or output without bytes.

use std::collections::BTreeSet;
use std::fs;
use std::path::Path;
use std::ptr::{self, NonNull};

use dwarnizza_sys::*;

use crate::{c, header};

/// The pointers of an input and of an output without bytes.
#[derive(Clone, Copy)]
struct Pointers {
    input: *const u8,
    output: *mut u8,
}

const NULL: Pointers = Pointers {
    input: ptr::null(),
    output: ptr::null_mut(),
};

const NOT_NULL: Pointers = Pointers {
    input: NonNull::dangling().as_ptr(),
    output: NonNull::dangling().as_ptr(),
};

/// A call in which some parameters have no bytes.
struct Case {
    export: &'static str,
    empty: Vec<&'static str>,
    /// The result, and the first word of the answer.
    expected: (u32, u64),
    result: u32,
    answer: [u64; 8],
}

const fn answered(word: u64) -> (u32, u64) {
    (0, word)
}

const ABSENT: (u32, u64) = (1, 0);

const fn refused(number: u64) -> (u32, u64) {
    (2, number)
}

/// Makes a call, without the answer among its arguments, in which these parameters have no bytes.
macro_rules! case {
    ($export:ident($($argument:expr),*), [$($empty:ident),*] => $expected:expr) => {{
        let mut answer = [u64::MAX; 8];
        // SAFETY: each pointer and length below are those of one slice, or the length is 0, which
        // is what is tried. No output overlaps another argument.
        let result = unsafe { $export($($argument),*, &mut answer) };
        Case {
            export: stringify!($export),
            empty: vec![$(stringify!($empty)),*],
            expected: $expected,
            result,
            answer,
        }
    }};
}

fn sample(name: &str) -> Vec<u8> {
    let sample = Path::new(env!("CARGO_MANIFEST_DIR")).join("../../sample");
    fs::read(sample.join(name)).expect("the sample build has it")
}

fn index() -> Vec<u8> {
    sample("archives/066a04990bc3bbc7c21bab87f0144807.index")
}

/// An index without entries, with keys of 16 bytes.
const NO_ENTRIES: [u8; 28] = *b"\xd4\x1d\x8c\xd9\x8f\x00\xb2\x04\x00\x00\x00\x04\x04\x04\x10\x08\
                                \x00\x00\x00\x00\xe0\xe3\x87\xf2\x31\x42\x6f\xd1";

/// An envelope without content.
const NO_CONTENT: [u8; 9] = *b"BLTE\0\0\0\0N";

fn hashing(none: Pointers) -> Vec<Case> {
    let (words, pending) = (&mut [0; 4], &mut [0; 64]);
    vec![
        case!(dwarnizza_md5(none.input, 0, &mut [0; 16]), [data] => answered(0)),
        case!(dwarnizza_md5_update(none.input, 0, words, pending, &mut 0), [part] => answered(0)),
    ]
}

/// The calls that read an index alone.
fn reading(none: Pointers) -> Vec<Case> {
    let (index, key) = (index(), [0; 16]);
    let (start, length) = (index.as_ptr(), index.len());
    vec![
        case!(dwarnizza_index_check(none.input, 0), [index] => refused(1)),
        case!(dwarnizza_index_settings(none.input, 0), [index] => refused(1)),
        case!(dwarnizza_index_entry(none.input, 0, 0, 0), [index] => refused(1)),
        case!(dwarnizza_index_footer(none.input, 0), [index] => refused(1)),
        case!(dwarnizza_index_loose(none.input, 0), [index] => ABSENT),
        case!(dwarnizza_index_page(none.input, 0, 0), [index] => refused(1)),
        case!(dwarnizza_index_bound(none.input, 0), [index] => refused(1)),
        case!(dwarnizza_index_lookup(none.input, 0, key.as_ptr(), 16), [index] => refused(1)),
        case!(dwarnizza_index_lookup(start, length, none.input, 0), [key] => refused(10)),
    ]
}

/// The calls that fill an output from an index.
fn listing(none: Pointers) -> Vec<Case> {
    let (index, mut output) = (index(), [0; 64]);
    let (start, length, room) = (index.as_ptr(), index.len(), output.as_mut_ptr());
    let empty = NO_ENTRIES.as_ptr();
    let text = "index key=16 offset=4 entries=0 pages=0\n".len() as u64;
    vec![
        case!(dwarnizza_index_list(none.input, 0, room, 64), [index] => refused(1)),
        case!(dwarnizza_index_list(start, length, none.output, 0), [output] => refused(13)),
        case!(dwarnizza_index_list(empty, 28, none.output, 0), [output] => answered(0)),
        case!(dwarnizza_index_listing(none.input, 0, room, 64), [input] => refused(1)),
        case!(dwarnizza_index_listing(empty, 28, none.output, 0), [output] => answered(text)),
    ]
}

/// The calls that write an index or an entry of its list.
fn writing(none: Pointers) -> Vec<Case> {
    let (list, key, mut output) = ([0; 24], [0; 16], [0; 28]);
    let (entry, key, room) = (list.as_ptr(), key.as_ptr(), output.as_mut_ptr());
    let Pointers {
        input: p,
        output: q,
    } = none;
    vec![
        case!(dwarnizza_index_write(0, 4, 16, p, 0, room, 28), [list] => answered(28)),
        case!(dwarnizza_index_write(0, 4, 16, p, 0, q, 0), [list, output] => refused(13)),
        case!(dwarnizza_index_write(0, 4, 16, entry, 24, q, 0), [output] => refused(13)),
        case!(dwarnizza_index_written_length(0, 4, 16, p, 0), [list] => answered(28)),
        case!(dwarnizza_list_put(0, 4, 16, p, 0, 1, 0, 2, room, 28), [key] => refused(10)),
        case!(dwarnizza_list_put(0, 4, 16, key, 16, 1, 0, 2, q, 0), [output] => refused(13)),
    ]
}

fn envelopes(none: Pointers) -> Vec<Case> {
    let (file, mut key) = (NO_CONTENT.as_ptr(), [0; 16]);
    // SAFETY: pointer and length are those of one array.
    let result = unsafe { dwarnizza_envelope_key(file, 9, &mut key, &mut [0; 8]) };
    assert_eq!(result, 0);
    let (start, mut output) = (key.as_ptr(), [0; 1]);
    let room = output.as_mut_ptr();
    vec![
        case!(dwarnizza_envelope_open(none.input, 0, start, 16, room, 1), [file] => refused(20)),
        case!(dwarnizza_envelope_open(file, 9, none.input, 0, room, 1), [key] => refused(27)),
        case!(dwarnizza_envelope_open(file, 9, start, 16, none.output, 0), [output] => answered(0)),
        case!(dwarnizza_envelope_length(none.input, 0, start, 16), [file] => refused(20)),
        case!(dwarnizza_envelope_length(file, 9, none.input, 0), [key] => refused(27)),
        case!(dwarnizza_envelope_key(none.input, 0, &mut [0; 16]), [file] => refused(20)),
    ]
}

fn encodings(none: Pointers) -> Vec<Case> {
    let (file, key) = (sample("encoding"), [0; 16]);
    let (start, length, key) = (file.as_ptr(), file.len(), key.as_ptr());
    vec![
        case!(dwarnizza_encoding_check(none.input, 0), [file] => refused(30)),
        case!(dwarnizza_encoding_find_content(none.input, 0, key, 16), [file] => refused(30)),
        case!(dwarnizza_encoding_find_content(start, length, none.input, 0), [key] => refused(39)),
        case!(dwarnizza_encoding_find_encoding(none.input, 0, key, 16), [file] => refused(30)),
        case!(dwarnizza_encoding_find_encoding(start, length, none.input, 0), [key] => refused(39)),
        case!(dwarnizza_encoding_spec(none.input, 0, 0), [file] => refused(30)),
    ]
}

/// Root files, the chain, and the text of keys. The root file has the file number 417.
fn file_numbers(none: Pointers) -> Vec<Case> {
    let (root, encoding, index) = (sample("root-v1"), sample("encoding"), index());
    let (r, r_len) = (root.as_ptr(), root.len());
    let (e, e_len) = (encoding.as_ptr(), encoding.len());
    let (i, i_len) = (index.as_ptr(), index.len());
    let (p, id) = (none.input, 417);
    vec![
        case!(dwarnizza_root_check(p, 0), [file] => answered(0)),
        case!(dwarnizza_root_find(p, 0, id, !0, 0, &mut [0; 16]), [file] => ABSENT),
        case!(dwarnizza_resolve(p, 0, e, e_len, i, i_len, id, !0, 0), [root] => ABSENT),
        case!(dwarnizza_resolve(r, r_len, p, 0, i, i_len, id, !0, 0), [encoding] => refused(30)),
        case!(dwarnizza_resolve(r, r_len, e, e_len, p, 0, id, !0, 0), [index] => refused(1)),
        case!(dwarnizza_key_text(p, 0, 16, &mut [0; 16]), [text] => refused(60)),
    ]
}

/// Paths. The name hash of the empty one stands in no record of the root file.
fn paths(none: Pointers) -> Vec<Case> {
    let (root, path, mut key) = (sample("root-v1"), *b"a", [0; 16]);
    let (r, r_len) = (root.as_ptr(), root.len());
    let (p, path, key) = (none.input, path.as_ptr(), &mut key);
    vec![
        case!(dwarnizza_name_hash(p, 0), [path] => answered(0xdead_beef_dead_beef)),
        case!(dwarnizza_root_find_path(p, 0, path, 1, !0, 0, key), [file] => ABSENT),
        case!(dwarnizza_root_find_path(r, r_len, p, 0, !0, 0, key), [path] => ABSENT),
        case!(dwarnizza_root_find_path(p, 0, p, 0, !0, 0, key), [file, path] => ABSENT),
    ]
}

/// Lists of file numbers, and the texts that they come as.
fn worklists(none: Pointers) -> Vec<Case> {
    let (root, mut output) = (sample("root-v1"), [0; 20]);
    let (r, r_len, room) = (root.as_ptr(), root.len(), output.as_mut_ptr());
    let (ids, text) = (417u32.to_be_bytes(), *b"417");
    let (ids, text) = (ids.as_ptr(), text.as_ptr());
    let Pointers {
        input: p,
        output: q,
    } = none;
    vec![
        case!(dwarnizza_root_find_many(p, 0, ids, 4, !0, 0, room, 20), [file] => answered(20)),
        case!(dwarnizza_root_find_many(r, r_len, p, 0, !0, 0, room, 20), [ids] => answered(0)),
        case!(dwarnizza_root_find_many(r, r_len, p, 0, !0, 0, q, 0), [ids, output] => answered(0)),
        case!(dwarnizza_root_find_many(r, r_len, ids, 4, !0, 0, q, 0), [output] => refused(13)),
        case!(dwarnizza_worklist_row(p, 0, 0, 44), [text] => ABSENT),
        case!(dwarnizza_worklist_field(p, 0, 0, 44, 0), [text] => ABSENT),
        case!(dwarnizza_worklist_unquoted(p, 0, room, 20), [field] => answered(0)),
        case!(dwarnizza_worklist_unquoted(p, 0, q, 0), [field, output] => answered(0)),
        case!(dwarnizza_worklist_unquoted(text, 3, q, 0), [output] => refused(13)),
        case!(dwarnizza_file_number(p, 0), [text] => (1, 1)),
    ]
}

fn cases(none: Pointers) -> Vec<Case> {
    [
        hashing,
        reading,
        listing,
        writing,
        envelopes,
        encodings,
        file_numbers,
        paths,
        worklists,
    ]
    .into_iter()
    .flat_map(|cases| cases(none))
    .collect()
}

#[test]
fn null_is_as_good_as_any_pointer_to_no_bytes() {
    for (null, other) in cases(NULL).into_iter().zip(cases(NOT_NULL)) {
        let called = format!("{} without {:?}", null.export, null.empty);
        assert_eq!((null.result, null.answer[0]), null.expected, "{called}");
        assert_eq!(
            (null.result, null.answer),
            (other.result, other.answer),
            "{called}"
        );
    }
}

#[test]
fn every_pointer_with_a_length_is_tried() {
    let tried: BTreeSet<(String, String)> = cases(NULL)
        .into_iter()
        .flat_map(|case| {
            let export = case.export;
            let empty = case.empty.into_iter();
            empty.map(|parameter| (export.to_owned(), parameter.to_owned()))
        })
        .collect();
    let declared: BTreeSet<(String, String)> = c::declarations(&header())
        .into_iter()
        .flat_map(|declaration| {
            let lengths = declaration.parameters.into_iter();
            lengths.filter_map(move |parameter| {
                let of = parameter.name.strip_suffix("_len")?;
                Some((declaration.name.clone(), of.to_owned()))
            })
        })
        .collect();
    assert_eq!(tried, declared);
}
