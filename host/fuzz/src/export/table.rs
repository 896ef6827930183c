//! Every export of the header.

use std::ops::RangeInclusive;

use dwarnizza_sys as sys;
use second::chain::{Build, Link, Refused, Resolved};
use second::file_number::{Fault, NotFileNumber, file_number};
use second::index::{FOOTER, Settings};
use second::name_hash::name_hash;
use second::{chain, encoding, envelope, index, key, md5, root, worklist};

use super::library::{Function, State, bytes_16};
use super::second_program::{Said, lookup, part, place_in_archive, settings};
use super::{Export, Given};

/// The refusals of the opening checks of an index: under 28 bytes, a field of the footer, and the
/// others. Then those of its pages.
const SHORT: RangeInclusive<u32> = 1..=1;
const FIELDS: RangeInclusive<u32> = 102..=108;
const OPENING: RangeInclusive<u32> = 3..=5;
const PAGES: RangeInclusive<u32> = 6..=9;

/// All of them.
pub static ALL: [&Export; 35] = [
    &MD5,
    &MD5_START,
    &MD5_UPDATE,
    &MD5_FINISH,
    &INDEX_CHECK,
    &INDEX_SETTINGS,
    &INDEX_ENTRY,
    &INDEX_FOOTER,
    &INDEX_LOOSE,
    &INDEX_PAGE,
    &INDEX_LIST,
    &INDEX_WRITE,
    &INDEX_WRITTEN_LENGTH,
    &LIST_PUT,
    &INDEX_LISTING,
    &INDEX_LOOKUP,
    &INDEX_BOUND,
    &ENVELOPE_OPEN,
    &ENVELOPE_LENGTH,
    &ENVELOPE_KEY,
    &ENCODING_CHECK,
    &ENCODING_FIND_CONTENT,
    &ENCODING_FIND_ENCODING,
    &ENCODING_SPEC,
    &ROOT_CHECK,
    &ROOT_FIND,
    &ROOT_FIND_MANY,
    &NAME_HASH,
    &ROOT_FIND_PATH,
    &RESOLVE,
    &KEY_TEXT,
    &WORKLIST_ROW,
    &WORKLIST_FIELD,
    &WORKLIST_UNQUOTED,
    &FILE_NUMBER,
];

/// MD5 in one call.
pub static MD5: Export = Export {
    name: "dwarnizza_md5",
    inputs: &["data"],
    numbers: &[],
    library: Function::FileTo16(sys::dwarnizza_md5),
    second: |given, output| Said::of_16(md5::digest(given.bytes[0]), output),
    refusals: &[],
};

/// The output is the state.
pub static MD5_START: Export = Export {
    name: "dwarnizza_md5_start",
    inputs: &[],
    numbers: &[],
    // SAFETY: the output is a state, as its case lends it.
    library: Function::Other(|_, lent| unsafe {
        let state = State::lent(lent);
        let (words, pending) = (&mut state.words, &mut state.pending);
        sys::dwarnizza_md5_start(words, pending, &mut state.count, &mut *lent.answer)
    }),
    second: |_, output| {
        put_state(&md5::State::new(), output);
        Said::answered([])
    },
    refusals: &[],
};

/// The output is the state, before and after.
pub static MD5_UPDATE: Export = Export {
    name: "dwarnizza_md5_update",
    inputs: &["part"],
    numbers: &[],
    // SAFETY: as above; the part is a slice.
    library: Function::Other(|given, lent| unsafe {
        let (state, (part, part_len)) = (State::lent(lent), given.lent(0));
        sys::dwarnizza_md5_update(
            part,
            part_len,
            &mut state.words,
            &mut state.pending,
            &mut state.count,
            &mut *lent.answer,
        )
    }),
    second: |given, output| {
        let mut state = second_state(output);
        let told = state.update(given.bytes[0]);
        put_state(&state, output);
        Said::of(told, |()| [])
    },
    refusals: &[50..=50],
};

/// The state is an input.
pub static MD5_FINISH: Export = Export {
    name: "dwarnizza_md5_finish",
    inputs: &["state"],
    numbers: &[],
    // SAFETY: the output has 16 bytes, as its case lends it.
    library: Function::Other(|given, lent| unsafe {
        let State {
            words,
            pending,
            count,
        } = State::of(given.bytes[0]);
        sys::dwarnizza_md5_finish(&words, &pending, count, bytes_16(lent), &mut *lent.answer)
    }),
    second: |given, output| Said::of_16(Ok(second_state(given.bytes[0]).finish()), output),
    refusals: &[],
};

/// The full check of an index.
pub static INDEX_CHECK: Export = Export {
    name: "dwarnizza_index_check",
    inputs: &["index"],
    numbers: &[],
    library: Function::File(sys::dwarnizza_index_check),
    second: |given, _| Said::of(index::check(given.bytes[0]), settings),
    refusals: &[SHORT, FIELDS, OPENING, PAGES],
};

/// What a footer says.
pub static INDEX_SETTINGS: Export = Export {
    name: "dwarnizza_index_settings",
    inputs: &["index"],
    numbers: &[],
    library: Function::File(sys::dwarnizza_index_settings),
    second: |given, _| Said::of(index::Index::open(given.bytes[0]), settings),
    refusals: &[SHORT, FIELDS, OPENING],
};

/// An entry by its page and slot.
pub static INDEX_ENTRY: Export = Export {
    name: "dwarnizza_index_entry",
    inputs: &["index"],
    numbers: &["page", "slot"],
    library: Function::FileAndTwoU64(sys::dwarnizza_index_entry),
    second: |given, _| {
        let file = given.bytes[0];
        let [page, slot, ..] = given.numbers;
        Said::of_found(index::entry(file, page, slot), |entry| {
            let [place, key_length] = part(file, entry.key);
            let (page, slot) = (entry.page as u64, entry.slot as u64);
            let (size, archive) = (entry.size.into(), entry.archive.into());
            [place, key_length, size, archive, entry.offset, page, slot]
        })
    },
    refusals: &[SHORT, FIELDS, OPENING],
};

/// What a footer says, whatever the length.
pub static INDEX_FOOTER: Export = Export {
    name: "dwarnizza_index_footer",
    inputs: &["index"],
    numbers: &[],
    library: Function::File(sys::dwarnizza_index_footer),
    second: |given, _| {
        Said::of(index::footer(given.bytes[0]), |footer| {
            let Settings {
                version,
                offset_width,
                key_length,
            } = footer.settings;
            let [version, width, key] = [version, offset_width, key_length].map(u64::from);
            let counts = [footer.entries, footer.pages(), footer.file_len(), FOOTER];
            let [entries, pages, length, footer] = counts.map(|count| count as u64);
            [version, width, key, entries, pages, length, footer]
        })
    },
    refusals: &[SHORT, FIELDS, 3..=4],
};

/// Whether a footer is that of loose files.
pub static INDEX_LOOSE: Export = Export {
    name: "dwarnizza_index_loose",
    inputs: &["index"],
    numbers: &[],
    library: Function::File(sys::dwarnizza_index_loose),
    second: |given, _| match index::is_loose(given.bytes[0]) {
        true => Said::answered([]),
        false => Said::absent([]),
    },
    refusals: &[],
};

/// Where a page and its parts stand.
pub static INDEX_PAGE: Export = Export {
    name: "dwarnizza_index_page",
    inputs: &["index"],
    numbers: &["page"],
    library: Function::FileAndU64(sys::dwarnizza_index_page),
    second: |given, _| {
        Said::of_found(index::page(given.bytes[0], given.numbers[0]), |parts| {
            let parts = [parts.page, parts.last_key, parts.hash, parts.entries];
            let words = parts.map(|part| [part.start as u64, part.len() as u64]);
            std::array::from_fn::<u64, 8, _>(|word| words[word / 2][word % 2])
        })
    },
    refusals: &[SHORT, FIELDS, OPENING],
};

/// The list of an index.
pub static INDEX_LIST: Export = Export {
    name: "dwarnizza_index_list",
    inputs: &["index"],
    numbers: &[],
    library: Function::FileToOutput(sys::dwarnizza_index_list),
    second: |given, output| Said::of_length(index::list(given.bytes[0], output)),
    refusals: &[SHORT, FIELDS, OPENING, PAGES, 13..=13],
};

/// The index of a list.
pub static INDEX_WRITE: Export = Export {
    name: "dwarnizza_index_write",
    inputs: &["list"],
    numbers: SETTINGS,
    // SAFETY: the list is a slice, and the output is lent.
    library: Function::Other(|given, lent| unsafe {
        let ((list, list_len), settings) = (given.lent(0), given_settings(given));
        sys::dwarnizza_index_write(
            settings.version,
            settings.offset_width,
            settings.key_length,
            list,
            list_len,
            lent.output,
            lent.length,
            &mut *lent.answer,
        )
    }),
    second: |given, output| {
        Said::of_length(index::write(given_settings(given), given.bytes[0], output))
    },
    refusals: &[8..=8, 11..=13],
};

/// The length of a written index.
pub static INDEX_WRITTEN_LENGTH: Export = Export {
    name: "dwarnizza_index_written_length",
    inputs: &["list"],
    numbers: SETTINGS,
    // SAFETY: the list is a slice.
    library: Function::Other(|given, lent| unsafe {
        let ((list, list_len), settings) = (given.lent(0), given_settings(given));
        sys::dwarnizza_index_written_length(
            settings.version,
            settings.offset_width,
            settings.key_length,
            list,
            list_len,
            &mut *lent.answer,
        )
    }),
    second: |given, _| {
        Said::of_length(index::written_length(given_settings(given), given.bytes[0]))
    },
    refusals: &[8..=8, 11..=12],
};

/// One entry of a list.
pub static LIST_PUT: Export = Export {
    name: "dwarnizza_list_put",
    inputs: &["key"],
    numbers: &["version", "W", "K", "size", "archive", "offset"],
    // SAFETY: the key is a slice, and the output is lent.
    library: Function::Other(|given, lent| unsafe {
        let ((key, key_len), settings) = (given.lent(0), given_settings(given));
        sys::dwarnizza_list_put(
            settings.version,
            settings.offset_width,
            settings.key_length,
            key,
            key_len,
            given.numbers[3] as u32,
            given.numbers[4] as u32,
            given.numbers[5],
            lent.output,
            lent.length,
            &mut *lent.answer,
        )
    }),
    second: |given, output| {
        let [.., size, archive, offset] = given.numbers;
        let (size, archive) = (size as u32, archive as u32);
        let (settings, key) = (given_settings(given), given.bytes[0]);
        Said::of_length(index::put_entry(
            settings, key, size, archive, offset, output,
        ))
    },
    refusals: &[10..=11, 13..=13],
};

/// The listing of an index. Without room the text is not written.
pub static INDEX_LISTING: Export = Export {
    name: "dwarnizza_index_listing",
    inputs: &["index"],
    numbers: &[],
    library: Function::FileToOutput(sys::dwarnizza_index_listing),
    second: |given, output| {
        Said::of(index::listing(given.bytes[0]), |text| {
            if let Some(start) = output.get_mut(..text.len()) {
                start.copy_from_slice(text.as_bytes());
            }
            [text.len() as u64]
        })
    },
    refusals: &[SHORT, FIELDS, OPENING, PAGES, 70..=70],
};

/// The lookup of a key.
pub static INDEX_LOOKUP: Export = Export {
    name: "dwarnizza_index_lookup",
    inputs: &["index", "key"],
    numbers: &[],
    library: Function::FileAndKey(sys::dwarnizza_index_lookup),
    second: |given, _| match index::lookup(given.bytes[0], given.bytes[1]) {
        Ok(found) => lookup(found),
        Err(refusal) => Said::refused(refusal, 0),
    },
    refusals: &[SHORT, FIELDS, OPENING, 10..=10],
};

/// The most comparisons of a lookup.
pub static INDEX_BOUND: Export = Export {
    name: "dwarnizza_index_bound",
    inputs: &["index"],
    numbers: &[],
    library: Function::File(sys::dwarnizza_index_bound),
    second: |given, _| Said::of(index::bound(given.bytes[0]), |bound| [bound.into()]),
    refusals: &[SHORT, FIELDS, OPENING],
};

/// The content of an envelope.
pub static ENVELOPE_OPEN: Export = Export {
    name: "dwarnizza_envelope_open",
    inputs: &["envelope", "key"],
    numbers: &[],
    // SAFETY: file and key are slices, and the output is lent.
    library: Function::Other(|given, lent| unsafe {
        let ((file, file_len), (key, key_len)) = (given.lent(0), given.lent(1));
        sys::dwarnizza_envelope_open(
            file,
            file_len,
            key,
            key_len,
            lent.output,
            lent.length,
            &mut *lent.answer,
        )
    }),
    second: |given, output| {
        let [file, key, _] = given.bytes;
        Said::of_length(envelope::open_into(file, key, output))
    },
    refusals: &[20..=27],
};

/// The length of that.
pub static ENVELOPE_LENGTH: Export = Export {
    name: "dwarnizza_envelope_length",
    inputs: &["envelope", "key"],
    numbers: &[],
    library: Function::FileAndKey(sys::dwarnizza_envelope_length),
    second: |given, _| Said::of_length(envelope::content_length(given.bytes[0], given.bytes[1])),
    refusals: &[20..=25, 27..=27],
};

/// The key of an envelope.
pub static ENVELOPE_KEY: Export = Export {
    name: "dwarnizza_envelope_key",
    inputs: &["envelope"],
    numbers: &[],
    library: Function::FileTo16(sys::dwarnizza_envelope_key),
    second: |given, output| Said::of_16(envelope::envelope_key(given.bytes[0]), output),
    refusals: &[20..=22],
};

/// The full check of an encoding file.
pub static ENCODING_CHECK: Export = Export {
    name: "dwarnizza_encoding_check",
    inputs: &["encoding"],
    numbers: &[],
    library: Function::File(sys::dwarnizza_encoding_check),
    second: |given, _| Said::of(encoding::check(given.bytes[0]), |()| []),
    refusals: &[30..=38],
};

/// The lookup of a content key.
pub static ENCODING_FIND_CONTENT: Export = Export {
    name: "dwarnizza_encoding_find_content",
    inputs: &["encoding", "key"],
    numbers: &[],
    library: Function::FileAndKey(sys::dwarnizza_encoding_find_content),
    second: |given, _| {
        let [file, key, _] = given.bytes;
        Said::of_found(encoding::find_content(file, key), |entry| {
            let [place, length] = part(file, entry.encoding_keys);
            [entry.size, entry.count.into(), place, length]
        })
    },
    refusals: &[30..=33, 35..=35, 39..=39],
};

/// The lookup of an encoding key.
pub static ENCODING_FIND_ENCODING: Export = Export {
    name: "dwarnizza_encoding_find_encoding",
    inputs: &["encoding", "key"],
    numbers: &[],
    library: Function::FileAndKey(sys::dwarnizza_encoding_find_encoding),
    second: |given, _| {
        let [file, key, _] = given.bytes;
        Said::of_found(encoding::find_encoding(file, key), |(entry, spec)| {
            let [place, length] = part(file, spec);
            [entry.spec_number.into(), entry.size, place, length]
        })
    },
    refusals: &[30..=33, 38..=39],
};

/// The spec with a number.
pub static ENCODING_SPEC: Export = Export {
    name: "dwarnizza_encoding_spec",
    inputs: &["encoding"],
    numbers: &["number"],
    library: Function::FileAndU32(sys::dwarnizza_encoding_spec),
    second: |given, _| {
        let file = given.bytes[0];
        let told = encoding::spec(file, given.numbers[0] as u32);
        Said::of(told, |spec| part(file, spec))
    },
    refusals: &[30..=33, 38..=38],
};

/// The full check of a root file.
pub static ROOT_CHECK: Export = Export {
    name: "dwarnizza_root_check",
    inputs: &["root"],
    numbers: &[],
    library: Function::File(sys::dwarnizza_root_check),
    second: |given, _| Said::of(root::check(given.bytes[0]), |()| []),
    refusals: &[40..=44],
};

/// The content key of an id.
pub static ROOT_FIND: Export = Export {
    name: "dwarnizza_root_find",
    inputs: &["root"],
    numbers: WANTED,
    // SAFETY: the file is a slice, and the output has 16 bytes, as its case lends it.
    library: Function::Other(|given, lent| unsafe {
        let ((file, file_len), (id, locale, unwanted)) = (given.lent(0), wanted(given));
        sys::dwarnizza_root_find(
            file,
            file_len,
            id,
            locale,
            unwanted,
            bytes_16(lent),
            &mut *lent.answer,
        )
    }),
    second: |given, output| {
        let (id, locale, unwanted) = wanted(given);
        let told = root::find(given.bytes[0], id, locale, unwanted);
        Said::of_found(told, |found| {
            output.copy_from_slice(&found.key);
            [found.place as u64]
        })
    },
    refusals: &[40..=44],
};

/// The content keys of many ids.
pub static ROOT_FIND_MANY: Export = Export {
    name: "dwarnizza_root_find_many",
    inputs: &["root", "ids"],
    numbers: MASKS,
    // SAFETY: file and ids are slices, and the output is lent.
    library: Function::Other(|given, lent| unsafe {
        let ((file, file_len), (ids, ids_len)) = (given.lent(0), given.lent(1));
        let (locale, unwanted) = masks(given);
        sys::dwarnizza_root_find_many(
            file,
            file_len,
            ids,
            ids_len,
            locale,
            unwanted,
            lent.output,
            lent.length,
            &mut *lent.answer,
        )
    }),
    second: |given, output| {
        let [file, ids, _] = given.bytes;
        Said::of_length(root::find_many_into(file, ids, masks(given), output))
    },
    refusals: &[12..=13, 40..=44, 161..=161],
};

/// The name hash of a path.
pub static NAME_HASH: Export = Export {
    name: "dwarnizza_name_hash",
    inputs: &["path"],
    numbers: &[],
    library: Function::File(sys::dwarnizza_name_hash),
    second: |given, _| Said::of(name_hash(given.bytes[0]), |hash| [hash]),
    refusals: &[110..=110],
};

/// The id and the content key of a path.
pub static ROOT_FIND_PATH: Export = Export {
    name: "dwarnizza_root_find_path",
    inputs: &["root", "path"],
    numbers: MASKS,
    // SAFETY: file and path are slices, and the output has 16 bytes, as its case lends it.
    library: Function::Other(|given, lent| unsafe {
        let ((file, file_len), (path, path_len)) = (given.lent(0), given.lent(1));
        let (locale, unwanted) = masks(given);
        sys::dwarnizza_root_find_path(
            file,
            file_len,
            path,
            path_len,
            locale,
            unwanted,
            bytes_16(lent),
            &mut *lent.answer,
        )
    }),
    second: |given, output| {
        let ([file, path, _], (locale, unwanted)) = (given.bytes, masks(given));
        let told = root::find_path(file, path, locale, unwanted);
        Said::of_found(told, |(id, found)| {
            output.copy_from_slice(&found.key);
            [id.into(), found.place as u64]
        })
    },
    refusals: &[40..=44, 110..=110],
};

/// The chain.
pub static RESOLVE: Export = Export {
    name: "dwarnizza_resolve",
    inputs: &["root", "encoding", "index"],
    numbers: WANTED,
    // SAFETY: the files are slices.
    library: Function::Other(|given, lent| unsafe {
        let [
            (root, root_len),
            (encoding, encoding_len),
            (index, index_len),
        ] = [0, 1, 2].map(|input| given.lent(input));
        let (id, locale, unwanted) = wanted(given);
        sys::dwarnizza_resolve(
            root,
            root_len,
            encoding,
            encoding_len,
            index,
            index_len,
            id,
            locale,
            unwanted,
            &mut *lent.answer,
        )
    }),
    second: |given, _| {
        let ([root, encoding, index], (id, locale, unwanted)) = (given.bytes, wanted(given));
        let build = Build {
            root,
            encoding,
            index,
        };
        resolved(chain::resolve(build, id, locale, unwanted))
    },
    refusals: &[SHORT, FIELDS, OPENING, 10..=10, 30..=33, 35..=35, 39..=44],
};

/// The key of a text.
pub static KEY_TEXT: Export = Export {
    name: "dwarnizza_key_text",
    inputs: &["text"],
    numbers: &["K"],
    // SAFETY: the text is a slice, and the output has 16 bytes, as its case lends it.
    library: Function::Other(|given, lent| unsafe {
        let (text, text_len) = given.lent(0);
        let key_length = given.numbers[0] as u32;
        let (key, answer) = (bytes_16(lent), &mut *lent.answer);
        sys::dwarnizza_key_text(text, text_len, key_length, key, answer)
    }),
    second: |given, output| {
        let told = key::from_text(given.bytes[0], given.numbers[0] as u32);
        Said::of(told, |key| {
            output[..key.len()].copy_from_slice(&key);
            [key.len() as u64]
        })
    },
    refusals: &[11..=11, 60..=61],
};

/// A row of a worklist.
pub static WORKLIST_ROW: Export = Export {
    name: "dwarnizza_worklist_row",
    inputs: &["text"],
    numbers: &["at", "separator"],
    // SAFETY: the text is a slice.
    library: Function::Other(|given, lent| unsafe {
        let ((text, text_len), (at, separator)) = (given.lent(0), row_of(given));
        sys::dwarnizza_worklist_row(text, text_len, at, separator, &mut *lent.answer)
    }),
    second: |given, _| {
        let (at, separator) = row_of(given);
        Said::of_found(worklist::row(given.bytes[0], at, separator), |row| {
            let (fields, malformed, place) = match row.fields {
                Ok(fields) => (fields.len(), 0, 0),
                Err(place) => (0, 1, place),
            };
            [row.end, row.next, fields, malformed, place].map(|word| word as u64)
        })
    },
    refusals: &[11..=11],
};

/// A field of a row.
pub static WORKLIST_FIELD: Export = Export {
    name: "dwarnizza_worklist_field",
    inputs: &["text"],
    numbers: &["at", "separator", "column"],
    // SAFETY: the text is a slice.
    library: Function::Other(|given, lent| unsafe {
        let ((text, text_len), (at, separator)) = (given.lent(0), row_of(given));
        let (column, answer) = (given.numbers[2] as usize, &mut *lent.answer);
        sys::dwarnizza_worklist_field(text, text_len, at, separator, column, answer)
    }),
    second: |given, _| {
        let ((at, separator), column) = (row_of(given), given.numbers[2] as usize);
        let told = worklist::field(given.bytes[0], at, separator, column);
        Said::of_found(told, |field| {
            [field.place as u64, field.length as u64, field.quoted.into()]
        })
    },
    refusals: &[11..=11],
};

/// The bytes that a field stands for.
pub static WORKLIST_UNQUOTED: Export = Export {
    name: "dwarnizza_worklist_unquoted",
    inputs: &["field"],
    numbers: &[],
    library: Function::FileToOutput(sys::dwarnizza_worklist_unquoted),
    second: |given, output| Said::of_length(worklist::unquoted_into(given.bytes[0], output)),
    refusals: &[13..=13],
};

/// The file number of a text.
pub static FILE_NUMBER: Export = Export {
    name: "dwarnizza_file_number",
    inputs: &["text"],
    numbers: &[],
    library: Function::File(sys::dwarnizza_file_number),
    second: |given, _| match file_number(given.bytes[0]) {
        Ok(number) => Said::answered([number.into()]),
        Err(NotFileNumber { fault, place }) => {
            let fault = match fault {
                Fault::Empty => 1,
                Fault::LeadingZero => 2,
                Fault::NoDigit => 3,
                Fault::TooGreat => 4,
            };
            Said::absent([fault, place as u64])
        }
    },
    refusals: &[],
};

const SETTINGS: &[&str] = &["version", "W", "K"];

const WANTED: &[&str] = &["id", "locale", "unwanted"];

const MASKS: &[&str] = &["locale", "unwanted"];

/// The settings that are given, as numbers of 32 bits.
fn given_settings(given: &Given) -> Settings {
    let [version, offset_width, key_length, ..] = given.numbers.map(|number| number as u32);
    Settings {
        version,
        offset_width,
        key_length,
    }
}

/// Id, locale mask and mask of unwanted content.
fn wanted(given: &Given) -> (u32, u32, u64) {
    let [id, locale, unwanted, ..] = given.numbers;
    (id as u32, locale as u32, unwanted)
}

/// Locale mask and mask of unwanted content, where no id is given.
fn masks(given: &Given) -> (u32, u64) {
    let [locale, unwanted, ..] = given.numbers;
    (locale as u32, unwanted)
}

/// Where a row begins, and the separator.
fn row_of(given: &Given) -> (usize, u32) {
    let [at, separator, ..] = given.numbers;
    (at as usize, separator as u32)
}

fn resolved(told: Result<Resolved, Refused>) -> Said {
    match told {
        Ok(Resolved::Found { found, compared }) => {
            Said::answered(place_in_archive(found, compared))
        }
        Ok(Resolved::Absent { link, compared }) => {
            Said::absent([0, 0, number(link), 0, compared.into()])
        }
        Err(Refused { refusal, link }) => Said::refused(refusal, number(link)),
    }
}

fn number(link: Link) -> u64 {
    match link {
        Link::Root => 1,
        Link::Encoding => 2,
        Link::Index => 3,
    }
}

/// The second program's state of these bytes.
fn second_state(bytes: &[u8]) -> md5::State {
    let State {
        words,
        pending,
        count,
    } = State::of(bytes);
    md5::State {
        words,
        pending,
        count,
    }
}

fn put_state(state: &md5::State, output: &mut [u8]) {
    let &md5::State {
        words,
        pending,
        count,
    } = state;
    let state = State {
        words,
        pending,
        count,
    };
    output.copy_from_slice(&state.bytes());
}
