//! What the sources print with numbers, keys or bytes, each against the second program.
//!
//! 002, 003 and 004 are named as in docs/RULES.md. 000 is the whole documentation of cascette-rs,
//! 001 the page CASC of wowdev.wiki.

use second::encoding::{
    self, ContentEntry, EncodingEntry, HEADER, Header, Parts, TableParts, TableSizes,
};
use second::envelope::{PLAIN, with_table, without_table};
use second::index::{self, Settings};
use second::name_hash::{hashlittle2, name_hash};
use second::root::{self, BlockParts, Record};
use second::{envelope, key};

fn settings(offset_width: u32, key_length: u32) -> Settings {
    Settings {
        version: 1,
        offset_width,
        key_length,
    }
}

fn key_of(text: &str) -> Vec<u8> {
    key::from_text(text.as_bytes(), (text.len() / 2) as u32).unwrap()
}

/// 002: "With 16-byte keys: 16 + 4 + 4 = 24 bytes per entry", "With 9-byte keys: 9 + 4 + 4 = 17",
/// "With default 16+4+4 fields: 170 entries per chunk"; 001: "entries of 0x18 (hex) bytes".
#[test]
fn entries_of_an_index() {
    assert_eq!(settings(4, 16).entry_len(), 24);
    assert_eq!(settings(4, 16).entry_len(), 0x18);
    assert_eq!(settings(4, 9).entry_len(), 17);
    assert_eq!(settings(4, 16).entries_per_page(), 170);
}

/// 002: "Small indexes: ~8KB (few hundred entries)".
#[test]
fn a_small_index() {
    assert_eq!(settings(4, 16).file_len(300), 2 * (4096 + 16 + 8) + 28);
}

/// 000, Archive-Groups: "54MB, 2.1M entries", "73MB, 2.8M entries", "126MB, 5.0M entries". The
/// third fits with 1 MB of 1,048,576 bytes, the others with 1,000,000.
#[test]
fn archive_groups() {
    let sizes = [
        (54, 1_000_000, 2_100_000),
        (73, 1_000_000, 2_800_000),
        (126, 1 << 20, 5_000_000),
    ];
    for (size, unit, entries) in sizes {
        let least = settings(6, 16).file_len(entries - 50_000);
        let most = settings(6, 16).file_len(entries + 50_000);
        assert!(least <= size * unit + unit / 2 && size * unit - unit / 2 <= most);
    }
}

/// 000, Example Archive-Group Entry: "Key: 000003bafc39011c91accae47b94fb2d (16 bytes), Archive: 0,
/// Offset: 0x5dfd00d7, Size: 92,211,754 bytes"; "Check offset_bytes field at position -16 from
/// end".
#[test]
fn an_entry_of_an_archive_group() {
    let settings = settings(6, 16);
    let key = key_of("000003bafc39011c91accae47b94fb2d");
    let mut list = vec![0; settings.entry_len()];
    index::put_entry(settings, &key, 92_211_754, 0, 0x5dfd_00d7, &mut list).unwrap();
    assert_eq!(
        list[16..],
        [0x05, 0x7f, 0x0a, 0x2a, 0, 0, 0x5d, 0xfd, 0x00, 0xd7]
    );
    let mut file = vec![0; settings.file_len(1)];
    index::write(settings, &list, &mut file).unwrap();
    assert_eq!(file[file.len() - 16], 6);
    let found = index::lookup(&file, &key).unwrap().found.unwrap();
    assert_eq!((found.size, found.location), (92_211_754, 0x5dfd_00d7));
    let line = "000003bafc39011c91accae47b94fb2d 92211754 0 1576861911";
    assert!(index::listing(&file).unwrap().contains(line));
}

/// 000, BLTE Format, Real-World Example: the first 16 bytes of an encoding file's envelope. Its
/// first chunk is the header of 22 bytes after its mode.
#[test]
fn the_start_of_an_envelope() {
    let mut chunks = vec![vec![PLAIN, 0]; 7];
    chunks[0].resize(1 + HEADER, 0);
    let file = with_table(&chunks);
    let printed = "424c54450000 00b40f000007 00000017".replace(' ', "");
    assert_eq!(file[..16], key_of(&printed));
    assert_eq!(file.len(), 180 + 23 + 6 * 2);
    let key = envelope::envelope_key(&file).unwrap();
    assert_eq!(envelope::content_length(&file, &key), Ok(22 + 6));
}

/// 000, Encoding Types: "0x4E 'N' None", and four other modes. "[0x4E] [raw data...]".
#[test]
fn modes_of_chunks() {
    assert_eq!(PLAIN, 0x4e);
    let plain = without_table(&[0x4e, 1, 2, 3]);
    let key = envelope::envelope_key(&plain).unwrap();
    assert_eq!(envelope::open(&plain, &key), Ok(vec![1, 2, 3]));
    for mode in [0x5a, 0x34, 0x45, 0x46] {
        let file = without_table(&[mode, 1, 2, 3]);
        let key = envelope::envelope_key(&file).unwrap();
        assert_eq!(envelope::open(&file, &key).unwrap_err().number, 24);
    }
}

/// 000 has two things that the rules refuse. "flags: 0x0F = standard, 0x10 = extended", with rows
/// of 40 bytes: 21 by rule B9, as the TACT page has 0x0F alone. "Some chunks may have
/// compressed_size == 0": 22 by rule B10.
#[test]
fn envelopes_that_the_rules_refuse() {
    let mut extended = with_table(&[vec![PLAIN, 1]]);
    extended[7] = 12 + 40;
    extended[8] = 0x10;
    extended.splice(36..36, [0; 16]);
    assert_eq!(envelope::envelope_key(&extended).unwrap_err().number, 21);
    let empty = with_table(&[vec![PLAIN, 1], vec![]]);
    assert_eq!(envelope::envelope_key(&empty).unwrap_err().number, 22);
}

/// 001: "if either flags != 0xF or chunkCount == 0, the file is deemed badly formatted".
#[test]
fn envelopes_that_are_badly_formatted() {
    let mut flags = with_table(&[vec![PLAIN, 1]]);
    flags[8] = 0x0e;
    assert_eq!(envelope::envelope_key(&flags).unwrap_err().number, 21);
    let no_chunk = with_table(&[]);
    assert_eq!(envelope::envelope_key(&no_chunk).unwrap_err().number, 21);
}

/// A table of pages of 4 KB with keys of 16 bytes.
fn table(pages: u32) -> TableSizes {
    TableSizes {
        key_size: 16,
        page_kb: 4,
        pages,
    }
}

/// 003, Real-World Examples: the own specs of two encoding files, "(60 bytes)" and "(55 bytes)",
/// with the lengths of all their parts; 001 explains a third.
#[test]
fn parts_of_encoding_files() {
    let printed = [
        (
            "b:{22=n,76025=z,223424=n,28598272=n,146656=n,18771968=n,*=z}",
            60,
            [6982, 4583],
        ),
        (
            "b:{22=n,2069=z,65536=n,8388608=n,43008=n,5505024=n,*=z}",
            55,
            [2048, 1344],
        ),
        (
            "b:{22=n,31943=z,211232=n,27037696=n,138656=n,17747968=n,*=z}",
            60,
            [6601, 4333],
        ),
    ];
    for (own_spec, length, [content, encoding]) in printed {
        assert_eq!(own_spec.len(), length);
        let sizes = sizes_in(own_spec);
        let (content, encoding) = (table(content), table(encoding));
        let header = Header {
            content,
            encoding,
            spec_size: sizes[1] as u32,
        };
        let lengths = [
            header.bytes().len(),
            sizes[1],
            content.index_len(),
            content.pages_len(),
            encoding.index_len(),
            encoding.pages_len(),
        ];
        assert_eq!(sizes, lengths, "{own_spec}");
    }
}

/// The sizes in a spec that is a list of blocks.
fn sizes_in(spec: &str) -> Vec<usize> {
    let blocks = spec["b:{".len()..].split(',');
    let sizes = blocks.filter_map(|block| block.split('=').next()?.parse().ok());
    sizes.collect()
}

/// 003, Real-World Example, of the file that the second own spec above is of: "Magic: 0x454E,
/// Version: 1, CKey/EKey size: 16 bytes each, CKey pages: 4KB × 127 pages, EKey pages: 4KB × 127
/// pages, ESpec table: 1,234 bytes". By its own spec the file has 2,048 and 1,344 pages and a table
/// of 2,069 bytes, so these numbers cannot be of it; here they are those of a header alone.
#[test]
fn a_header_of_an_encoding_file() {
    let header = Header {
        content: table(127),
        encoding: table(127),
        spec_size: 1234,
    };
    let bytes = [
        0x45, 0x4e, 1, 16, 16, 0, 4, 0, 4, 0, 0, 0, 127, 0, 0, 0, 127, 0, 0, 0, 0x04, 0xd2,
    ];
    assert_eq!(header.bytes(), bytes);
    assert_eq!(Header::read(&bytes), Ok((header, &[][..])));
}

/// 003, the same example: one content entry and its encoding entry, with "ESpec index: 1 (points to
/// "z")". In the table of specs that 003 prints "z" is number 0, so the entry is of another table,
/// here of "n" and "z".
#[test]
fn entries_of_an_encoding_file() {
    let content_key = key_of("3ce96e7a9e3b6f5c9d99c8b4e0a4f3d2");
    let encoding_key = key_of("7f8a9b3c4d5e6f7081929a3b4c5d6e7f");
    let content = ContentEntry {
        count: 1,
        size: 524_288,
        key: &content_key,
        encoding_keys: &encoding_key,
    };
    let coded = EncodingEntry {
        key: &encoding_key,
        spec_number: 1,
        size: 187_234,
    };
    assert_eq!(content.bytes()[..7], [1, 0, 0, 8, 0, 0, 0x3c]);
    assert_eq!(coded.bytes()[16..], [0, 0, 0, 1, 0, 0, 2, 0xdb, 0x62]);
    let table = |entry: Vec<u8>| TableParts {
        key_size: 16,
        page_kb: 4,
        pages: vec![entry],
    };
    let file = encoding::write(&Parts {
        specs: b"n\0z\0".to_vec(),
        content: table(content.bytes()),
        encoding: table(coded.bytes()),
        own_spec: Vec::new(),
    });
    assert_eq!(encoding::check(&file), Ok(()));
    assert_eq!(
        encoding::find_content(&file, &content_key),
        Ok(Some(content))
    );
    let found = encoding::find_encoding(&file, &encoding_key);
    assert_eq!(found, Ok(Some((coded, &b"z"[..]))));
}

/// 003, ESpec String Table: "z\0b:{0,4}\0b:{0,4},z\0b:{0,2},z:{0,6}\0...\0", "Zero-based".
#[test]
fn a_table_of_specs() {
    let specs: [&[u8]; 4] = [b"z", b"b:{0,4}", b"b:{0,4},z", b"b:{0,2},z:{0,6}"];
    let page = |entry: &[u8]| TableParts {
        key_size: 1,
        page_kb: 1,
        pages: vec![entry.to_vec()],
    };
    let file = encoding::write(&Parts {
        specs: b"z\0b:{0,4}\0b:{0,4},z\0b:{0,2},z:{0,6}\0".to_vec(),
        content: page(&[1, 0, 0, 0, 0, 0, 7, 7]),
        encoding: page(&[7, 0, 0, 0, 3, 0, 0, 0, 0, 1]),
        own_spec: Vec::new(),
    });
    for (number, spec) in (0..).zip(specs) {
        assert_eq!(encoding::spec(&file, number), Ok(spec));
    }
    assert_eq!(encoding::spec(&file, 4).unwrap_err().number, 38);
}

/// The function of 004 that makes ids of deltas, as it is printed there but for the name of its
/// result; it wraps where the rules refuse with 41.
fn decode_file_data_ids(deltas: &[i32]) -> Vec<u32> {
    let mut ids = Vec::new();
    let mut current_id = 0u32;
    for (i, &delta) in deltas.iter().enumerate() {
        if i == 0 {
            current_id = delta as u32;
        } else {
            current_id = (current_id as i32).wrapping_add(delta) as u32;
        }
        ids.push(current_id);
        current_id = current_id.wrapping_add(1);
    }
    ids
}

/// The function of 001 for the id of a record: "+1 is implicit per entry, so consecutive ids will
/// have delta=0".
fn file_data_id(deltas: &[i32], index: usize) -> i32 {
    match index {
        0 => deltas[index],
        _ => file_data_id(deltas, index - 1) + 1 + deltas[index],
    }
}

/// A root file of one block, enUS by 004's table, whose records have the keys 0, 1, 2, ..
fn root_file(header: Option<root::Header>, deltas: &[i32]) -> Vec<u8> {
    let records = (0..).zip(deltas).map(|(number, &delta)| Record {
        delta,
        key: [number; 16],
        name_hash: [0; 8],
    });
    let block = BlockParts {
        locale: 0x0000_0002,
        content: 0x0000_1000,
        unknown: [0; 5],
        records: records.collect(),
    };
    root::write(header, &[block])
}

/// Finds the record of each id.
fn compare_ids(deltas: &[i32]) {
    let file = root_file(None, deltas);
    for (number, id) in (0..).zip(decode_file_data_ids(deltas)) {
        let found = root::find(&file, id, 0x0000_0002, 0).unwrap();
        let key = found.map(|found| found.key);
        assert_eq!(key, Some([number; 16]), "{deltas:?}");
        assert_eq!(file_data_id(deltas, number.into()) as u32, id);
    }
}

#[test]
fn ids_of_deltas() {
    compare_ids(&[5, 0, 0]);
    compare_ids(&[120, 3, -2, 40_000, -7]);
    compare_ids(&[0, 1, 2, 3]);
    compare_ids(&[i32::MAX - 9, 8]);
    let wrapped = root_file(None, &[0, -2]);
    assert_eq!(decode_file_data_ids(&[0, -2]), [0, u32::MAX]);
    assert_eq!(root::check(&wrapped).unwrap_err().number, 41);
}

/// 004: the magics 0x4D465354 and 0x5453464D; V1 blocks of 12 bytes before the deltas and 28 for a
/// record, later ones of 17, which 000 and 004 give to short headers too (rule R24 does not). 000:
/// "0x10000000: No name hash present", where 004 has 0x00002000.
#[test]
fn sizes_of_root_files() {
    assert_eq!(
        root::MAGICS,
        [0x4d46_5354_u32, 0x5453_464d].map(u32::to_be_bytes)
    );
    let [magic, _] = root::MAGICS;
    let header = |a, b| Some(root::Header { magic, a, b });
    assert_eq!(root_file(None, &[1, 2]).len(), 12 + 2 * 28);
    for (header, start, block_header, content_at) in
        [(header(1000, 900), 12, 12, 4), (header(24, 2), 24, 17, 8)]
    {
        let mut unnamed = root_file(header, &[1, 2]);
        assert_eq!(unnamed.len(), start + block_header + 2 * 28);
        unnamed[start + content_at..][..4].copy_from_slice(&0x1000_0000_u32.to_le_bytes());
        unnamed.truncate(start + block_header + 2 * 20);
        assert_eq!(root::check(&unnamed), Ok(()));
    }
}

/// 004 prints a header of version 3 with "Size of header (20 bytes)" and "Version (1)", of six
/// numbers, which are 24 bytes. The 20 bytes are the header (rule R4), though by the heuristic of
/// 004, versions 2 to 4, it is a short one. 000 takes every version below 10 for a long header; here
/// 0 and 5 to 9 mean a short one.
#[test]
fn the_header_of_version_3() {
    let [_, magic] = root::MAGICS;
    let header = |b| Some(root::Header { magic, a: 20, b });
    for (b, length) in [
        (0, 12 + 12),
        (1, 20 + 12),
        (2, 20 + 17),
        (3, 20 + 17),
        (5, 12 + 12),
    ] {
        let file = root_file(header(b), &[7]);
        assert_eq!(file.len(), length + 28);
        let found = root::find(&file, 7, 2, 0).unwrap().unwrap();
        assert_eq!(found.place, length + 4);
    }
}

/// 004, Example Hashes: "Empty string: 0xDEADBEEFDEADBEEF", "Interface\Icons\INV_Misc_QuestionMark.blp:
/// 0x9EB59E3C76124837". 001 has slashes replaced by backslashes and the result pc alone, which is
/// the upper half here. The code of 004 replaces backslashes by slashes and exchanges the halves;
/// it does not give the value that 004 prints.
#[test]
fn name_hashes() {
    assert_eq!(name_hash(b""), Ok(0xdead_beef_dead_beef));
    let path = br"Interface\Icons\INV_Misc_QuestionMark.blp";
    assert_eq!(name_hash(path), Ok(0x9eb5_9e3c_7612_4837));
    let (pc, pb) = hashlittle2(&path.to_ascii_uppercase(), 0, 0);
    assert_eq!((pc, pb), (0x9eb5_9e3c, 0x7612_4837));
    let by_004 = hashlittle2(b"INTERFACE/ICONS/INV_MISC_QUESTIONMARK.BLP", 0, 0);
    assert_eq!(by_004, (0xdac7_ae31, 0x19af_f9ca));
}
