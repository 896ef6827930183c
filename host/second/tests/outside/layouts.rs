//! The layouts by Python.

use second::encoding::{
    ContentEntry, EncodingEntry, PADDING, Parts, TableParts, find_content, find_encoding, paged,
};
use second::envelope::{PLAIN, envelope_key, with_table};
use second::index::{Settings, write};
use second::md5_suite::data;
use second::root::{BlockParts, Header, MAGICS, Record};
use second::{encoding, md5, root};

use crate::tools::{lines_by_python, printed_by_python};

fn hex(bytes: &[u8]) -> String {
    bytes.iter().map(|byte| format!("{byte:02x}")).collect()
}

/// The key of a number: its last bytes count, the others are spread.
fn key(number: usize, length: usize) -> Vec<u8> {
    let counted = (number as u128).to_be_bytes();
    let mut key = counted[16 - length..].to_vec();
    if length > 8 {
        key[..length - 8].fill(0xa5);
    }
    key
}

#[test]
fn indexes() {
    for (offset_width, key_length) in [(4, 1), (4, 9), (4, 16), (5, 16), (6, 15), (6, 16)] {
        let settings = Settings {
            version: key_length % 2,
            offset_width,
            key_length,
        };
        let full = settings.entries_per_page();
        // There are 256 keys of one byte.
        let most = if key_length == 1 { 256 } else { 2 * full + 1 };
        compare_index(settings, 0);
        compare_index(settings, full.min(most));
        compare_index(settings, most);
    }
}

fn compare_index(settings: Settings, entries: usize) {
    let spread = data(entries * settings.entry_len());
    let rest = settings.entry_len() - settings.key_len();
    let list: Vec<u8> = (0..entries)
        .flat_map(|number| {
            [
                key(number, settings.key_len()),
                spread[number..][..rest].to_vec(),
            ]
        })
        .flatten()
        .collect();
    let mut file = vec![0; settings.file_len(entries)];
    write(settings, &list, &mut file).unwrap();
    let numbers = [settings.version, settings.offset_width, settings.key_length];
    let mut arguments = vec!["index".to_string()];
    arguments.extend(numbers.map(|number| number.to_string()));
    if let Some(by_python) = printed_by_python(&arguments, &list) {
        assert!(by_python == file, "{settings:?}, {entries} entries");
    }
}

#[test]
fn envelopes() {
    for sizes in [vec![1], vec![23, 1000, 2], vec![70_000; 3]] {
        let content = data(70_000);
        let chunks = sizes
            .iter()
            .map(|&size| [&[PLAIN], &content[1..size]].concat());
        let chunks: Vec<_> = chunks.collect();
        let file = with_table(&chunks);
        let mut arguments = vec!["envelope".to_string()];
        arguments.extend(sizes.iter().map(usize::to_string));
        if let Some(by_python) = printed_by_python(&arguments, &chunks.concat()) {
            let (key, by_python) = by_python.split_at(16);
            assert!(by_python == file, "chunks of {sizes:?}");
            assert_eq!(envelope_key(&file).unwrap(), key);
        }
    }
}

/// Entries of both kinds with keys of these sizes, on pages of 1 and 2 KB, some of them padding.
fn encoding_file(content_size: u8, encoding_size: u8) -> Vec<u8> {
    let (mut content, mut coded) = (Vec::new(), Vec::new());
    for number in 0..100 {
        let encoding_keys = key(number, encoding_size.into()).repeat(number % 3 + 1);
        let entry = ContentEntry {
            count: (number % 3 + 1) as u8,
            size: (number as u64) << 32 | 7,
            key: &key(number, content_size.into()),
            encoding_keys: &encoding_keys,
        };
        content.push(entry.bytes());
        let entry = EncodingEntry {
            key: &key(number, encoding_size.into()),
            spec_number: [0, 1, 2, PADDING][number % 4],
            size: (number as u64) << 33 | 9,
        };
        coded.push(entry.bytes());
    }
    let table = |key_size, page_kb, entries| TableParts {
        key_size,
        page_kb,
        pages: paged(entries, page_kb),
    };
    encoding::write(&Parts {
        specs: b"n\0z\0b:{16K*=z}\0".to_vec(),
        content: table(content_size, 1, content),
        encoding: table(encoding_size, 2, coded),
        own_spec: b"b:{22=n,*=z}".to_vec(),
    })
}

#[test]
fn encoding_files() {
    for (content_size, encoding_size) in [(16, 16), (16, 9), (9, 16), (1, 1)] {
        let file = encoding_file(content_size, encoding_size);
        encoding::check(&file).unwrap();
        let Some(lines) = lines_by_python("encoding", &file) else {
            return;
        };
        let (own_spec, lines) = lines.split_last().unwrap();
        assert_eq!(own_spec, "own spec b:{22=n,*=z}");
        // All content entries, and of the encoding entries three of four. One with a key of zeros
        // and spec 0 is padding too, and keys of one byte have it.
        let zero_key = usize::from(encoding_size == 1);
        assert_eq!(compare_entries(&file, lines), 100 + 75 - zero_key);
    }
}

/// Compares the entries of all lines, and gives how many they are.
fn compare_entries(file: &[u8], lines: &[String]) -> usize {
    let mut entries = 0;
    for line in lines {
        if line.contains(" page ") {
            assert!(line.ends_with(" as said"), "{line}");
        } else {
            assert_eq!(*line, found_again(file, line));
            entries += 1;
        }
    }
    entries
}

/// The line of the entry that the second program finds by the key of a line.
fn found_again(file: &[u8], line: &str) -> String {
    let words: Vec<_> = line.split(' ').collect();
    let key: Vec<u8> = (0..words[1].len() / 2)
        .map(|at| u8::from_str_radix(&words[1][2 * at..][..2], 16).unwrap())
        .collect();
    if words[0] == "content" {
        let entry = find_content(file, &key).unwrap().unwrap();
        let keys = hex(entry.encoding_keys);
        return format!("content {} {} {keys}", hex(entry.key), entry.size);
    }
    let (entry, spec) = find_encoding(file, &key).unwrap().unwrap();
    let spec = str::from_utf8(spec).unwrap();
    format!("encoding {} {} {spec}", hex(entry.key), entry.size)
}

/// Three blocks with ids that rise, repeat and fall, one of them without name hashes.
fn blocks() -> Vec<BlockParts> {
    let block = |number: u8, deltas: &[i32]| BlockParts {
        locale: 2 << number,
        content: [0x2000, 0x1000_0000, 0x8000_0001][usize::from(number)],
        unknown: [number; 5],
        records: deltas
            .iter()
            .map(|&delta| Record {
                delta,
                key: md5::digest(&[number, delta as u8]).unwrap(),
                name_hash: [0xee; 8],
            })
            .collect(),
    };
    vec![
        block(0, &[5, 0, 0, 100, -50]),
        block(1, &[1_000_000, i32::MAX]),
        block(2, &[0, 0, 7]),
    ]
}

#[test]
fn root_files() {
    let header = |magic, a, b| Some(Header { magic, a, b });
    let [mfst, tsfm] = MAGICS;
    for header in [
        None,
        header(mfst, 10, 2),
        header(tsfm, 24, 5),
        header(mfst, 20, 1),
        header(tsfm, 24, 2),
    ] {
        let file = root::write(header, &blocks());
        root::check(&file).unwrap();
        let Some(lines) = lines_by_python("root", &file) else {
            return;
        };
        assert_eq!(lines.len(), 10);
        lines.iter().for_each(|line| compare_record(&file, line));
    }
}

/// Finds the record of a line, which has its id, its block's flags and its key; and finds none
/// where the content flags are unwanted.
fn compare_record(file: &[u8], line: &str) {
    let words: Vec<_> = line.split(' ').collect();
    let number = |at: usize| words[at].parse::<u32>().unwrap();
    let (id, locale, content) = (number(0), number(1), u64::from(number(2)));
    let found = root::find(file, id, locale, 0).unwrap().unwrap();
    assert_eq!(hex(&found.key), words[3], "{line}");
    let many = root::find_many(file, &id.to_be_bytes(), locale, 0).unwrap();
    assert_eq!(hex(&many), format!("01000000{}", words[3]), "{line}");
    let found = root::find(file, id, locale, content).unwrap();
    assert_eq!(found.is_none(), content > 0, "{line}");
}
