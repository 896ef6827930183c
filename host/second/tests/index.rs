//! Archive indexes by the second program: document 01's marked examples, whole files and footers
//! with hashes from elsewhere, the orders of refusal, the parts of pages, the lookup beside the
//! plain reading, and the listing.

use second::index::{
    FOOTER, Index, Lookup, MOST_ENTRIES, MOST_LISTED, PAGE, Settings, bound, check, entry, footer,
    is_loose, list, listing, lookup, page, printed, write,
};
use second::md5;
use second::refusal::{self, Refusal};

const K1_W4: Settings = settings(1, 4);
const K16_W4: Settings = settings(16, 4);

const fn settings(key_length: u32, offset_width: u32) -> Settings {
    Settings {
        version: 1,
        offset_width,
        key_length,
    }
}

/// A list with the keys `first`, `first + step` and so on, as numbers of K bytes.
fn counted_list(settings: Settings, entries: usize, first: u128, step: u128) -> Vec<u8> {
    let mut list = Vec::new();
    for number in 0..entries {
        let key = (first + number as u128 * step).to_be_bytes();
        list.extend(&key[key.len() - settings.key_len()..]);
        list.extend((number as u32).to_be_bytes());
        let location = (7 * number as u64).to_be_bytes();
        list.extend(&location[location.len() - settings.offset_width as usize..]);
    }
    list
}

/// The file of a list that may be written.
fn file(settings: Settings, list: &[u8]) -> Vec<u8> {
    let entries = list.len() / settings.entry_len();
    let mut file = vec![0xee; settings.file_len(entries)];
    assert_eq!(write(settings, list, &mut file), Ok(file.len()));
    file
}

fn refused_write(settings: Settings, list: &[u8], room: usize) -> Refusal {
    let mut output = vec![0xee; room];
    let refusal = write(settings, list, &mut output).expect_err("this is refused");
    assert!(output.iter().all(|&byte| byte == 0xee));
    refusal
}

#[test]
fn m1_to_m3_full_pages_and_lengths() {
    assert_eq!(K16_W4.entries_per_page(), 170);
    let lengths = [0, 1, 170, 171].map(|entries| K16_W4.file_len(entries));
    assert_eq!(lengths, [28, 4148, 4148, 8268]);
    assert_eq!(settings(9, 4).entries_per_page(), 240);
    assert_eq!(settings(16, 6).entries_per_page(), 157);
}

#[test]
fn m4_comparisons() {
    let one = file(K1_W4, &[5, 0, 0, 0, 7, 0, 0, 0, 9]);
    let found = lookup(&one, &[5]).unwrap();
    assert_eq!(found.compared, 3);
    let entry = found.found.unwrap();
    assert_eq!((entry.page, entry.slot), (0, 0));
    assert_eq!((entry.size, entry.location), (7, 9));
    for (key, compared) in [(4, 3), (6, 1)] {
        let absent = Lookup {
            found: None,
            compared,
        };
        assert_eq!(lookup(&one, &[key]), Ok(absent));
    }
    let absent = Lookup {
        found: None,
        compared: 0,
    };
    assert_eq!(lookup(&file(K1_W4, &[]), &[5]), Ok(absent));
}

/// The hashes were made by another program.
#[test]
fn whole_files() {
    let one = file(K1_W4, &[5, 0, 0, 0, 7, 0, 0, 0, 9]);
    let (page, table) = one.split_at(PAGE);
    assert_eq!(page[..9], [5, 0, 0, 0, 7, 0, 0, 0, 9]);
    assert!(page[9..].iter().all(|&byte| byte == 0));
    let expected = [
        b"\x05".as_slice(),
        b"\x88\x07\x96\x82\x6c\xe6\x5c\x05",
        b"\xd0\xd8\xb2\x43\xaa\x23\xc3\x90",
        b"\x01\x00\x00\x04\x04\x04\x01\x08",
        b"\x01\x00\x00\x00",
        b"\x11\xbd\x0b\x78\x75\xfe\x74\x90",
    ];
    assert_eq!(table, expected.concat());

    let version_0 = Settings {
        version: 0,
        ..K16_W4
    };
    let expected = [
        b"\xd4\x1d\x8c\xd9\x8f\x00\xb2\x04",
        b"\x00\x00\x00\x04\x04\x04\x10\x08".as_slice(),
        b"\x00\x00\x00\x00",
        b"\xe0\xe3\x87\xf2\x31\x42\x6f\xd1",
    ];
    assert_eq!(file(version_0, &[]), expected.concat());
}

/// A footer of the fields from version to hash length, n and a hash, after no contents hash.
fn footer_of(fields: [u8; 8], entries: u32, hash: [u8; 8]) -> Vec<u8> {
    [[0; 8].as_slice(), &fields, &entries.to_le_bytes(), &hash].concat()
}

/// The same with the right hash.
fn sealed_footer(fields: [u8; 8], entries: u32) -> Vec<u8> {
    let hashed = [fields.as_slice(), &entries.to_le_bytes(), &[0; 8]].concat();
    let digest = md5::digest(&hashed).unwrap();
    footer_of(fields, entries, *digest.first_chunk().unwrap())
}

const K16_W4_FIELDS: [u8; 8] = [1, 0, 0, 4, 4, 4, 16, 8];
const LOOSE_FIELDS: [u8; 8] = [1, 0, 0, 4, 0, 4, 16, 8];

/// The hashes were made by another program.
#[test]
fn a_footer_alone() {
    let hash = *b"\x0f\xfa\x6f\xee\x7f\x70\x36\xeb";
    let most = footer_of(K16_W4_FIELDS, 8_388_608, hash);
    let said = footer(&most).unwrap();
    assert_eq!((said.settings, said.entries), (K16_W4, 8_388_608));
    // 8,388,608 / 170 is 49,344.8.
    assert_eq!(said.pages(), 49_345);
    assert_eq!(said.file_len(), 49_345 * (4096 + 16 + 8) + 28);
    assert_eq!(check(&most).err(), Some(refusal::FILE_LENGTH));

    let hash = *b"\xcd\x10\xca\xf6\x9a\x31\x38\x45";
    let more = footer_of(K16_W4_FIELDS, 8_388_609, hash);
    assert_eq!(footer(&more), Err(refusal::TOO_MANY_ENTRIES));
}

#[test]
fn a_footer_is_read_whatever_comes_before_it() {
    let whole = file(K16_W4, &counted_list(K16_W4, 171, 0, 1));
    let said = footer(&whole).unwrap();
    assert_eq!((said.settings, said.entries), (K16_W4, 171));
    assert_eq!((said.pages(), said.file_len()), (2, 8268));
    assert_eq!(footer(&whole[1..]), Ok(said));
    assert_eq!(footer(&whole[whole.len() - FOOTER..]), Ok(said));
    assert_eq!(footer(&[&[7], whole.as_slice()].concat()), Ok(said));

    let short = &whole[whole.len() - FOOTER + 1..];
    assert_eq!(footer(short), Err(refusal::INDEX_TOO_SHORT));
    assert_eq!(footer(&whole[..PAGE]), Err(refusal::FOOTER_SECOND_RESERVED));
    let mut bad = whole.clone();
    *bad.last_mut().unwrap() ^= 1;
    assert_eq!(footer(&bad), Err(refusal::FOOTER_HASH));
}

/// The hashes were made by another program.
#[test]
fn loose_indexes() {
    let hash = *b"\xf6\xa1\xa4\xea\x08\x1a\xfb\xba";
    let loose = footer_of(LOOSE_FIELDS, 3, hash);
    assert!(is_loose(&loose));
    assert!(is_loose(&[&[7; 100], loose.as_slice()].concat()));
    assert!(!is_loose(&loose[1..]));
    assert_eq!(check(&loose).err(), Some(refusal::FOOTER_OFFSET_WIDTH));

    let hash = *b"\xa7\xcc\xdd\xbb\xc2\x15\xf7\x62";
    assert!(is_loose(&footer_of(
        [0, 0, 0, 4, 0, 4, 9, 8],
        u32::MAX,
        hash
    )));

    for place in 8..FOOTER {
        let mut bad = loose.clone();
        bad[place] ^= 1;
        assert!(!is_loose(&bad), "byte {place}");
    }
}

/// Values that each field may not have, and the number that refuses them.
const WRONG: [(&[u8], u32); 8] = [
    (&[2, 255], 102),
    (&[1], 103),
    (&[1], 103),
    (&[3, 5], 104),
    (&[1, 2, 3, 7], 105),
    (&[3, 5], 106),
    (&[0, 17], 107),
    (&[7, 9], 108),
];

/// Each field beside its list, with a hash that fits; and each later field wrong beside it.
#[test]
fn fields_of_footers() {
    assert!(is_loose(&sealed_footer(LOOSE_FIELDS, 3)));
    assert!(footer(&sealed_footer(K16_W4_FIELDS, 3)).is_ok());
    for (field, (values, number)) in WRONG.into_iter().enumerate() {
        let place = 8 + field as u64;
        for &value in values {
            let with = |mut fields: [u8; 8]| {
                fields[field] = value;
                sealed_footer(fields, 3)
            };
            assert!(!is_loose(&with(LOOSE_FIELDS)), "{field}: {value}");
            for later in field..8 {
                let mut fields = K16_W4_FIELDS;
                fields[later] = WRONG[later].0[0];
                let refused = footer(&with(fields));
                let wrong = Refusal { number, place };
                assert_eq!(refused, Err(wrong), "{field}: {value}, {later}");
            }
        }
    }
    assert!(!is_loose(&sealed_footer(K16_W4_FIELDS, 3)));
    let refused = footer(&sealed_footer(LOOSE_FIELDS, 3));
    assert_eq!(refused, Err(refusal::FOOTER_OFFSET_WIDTH));
}

/// What stands at the places told of a page: its part of the list, the last key of that, and the
/// hash of the page.
#[test]
fn parts_of_pages() {
    for settings in [settings(2, 4), settings(9, 5), settings(16, 6)] {
        let full = settings.entries_per_page();
        let written = counted_list(settings, 2 * full + 5, 0, 3);
        let file = file(settings, &written);
        let mut number = 0;
        for (at, count) in [(0, full), (1, full), (2, 5)] {
            let parts = page(&file, at).unwrap().unwrap();
            assert_eq!(parts.entries, number..number + count);
            let bytes = &file[parts.page];
            assert_eq!(bytes.len(), PAGE);
            let digest = md5::digest(bytes).unwrap();
            assert_eq!(file[parts.hash], digest[..8]);

            let list = &written[number * settings.entry_len()..][..count * settings.entry_len()];
            assert_eq!(bytes[..list.len()], *list);
            let last = &list[list.len() - settings.entry_len()..][..settings.key_len()];
            assert_eq!(file[parts.last_key], *last);
            number += count;
        }
        for past in [3, 1 << 32, u64::MAX] {
            assert_eq!(page(&file, past), Ok(None));
        }
        assert_eq!(page(&file[1..], 0), Err(refusal::FILE_LENGTH));
    }
    assert_eq!(page(&file(K1_W4, &[]), 0), Ok(None));
    assert_eq!(page(&[], 0), Err(refusal::INDEX_TOO_SHORT));
}

/// The entries in the slots of the pages are those of the list, and there are no others.
#[test]
fn entries_of_pages() {
    for settings in [settings(2, 4), settings(9, 5), settings(16, 6)] {
        let full = settings.entries_per_page();
        let written = counted_list(settings, 2 * full + 5, 0, 3);
        let file = file(settings, &written);
        let mut listed = (0..).zip(written.chunks(settings.entry_len()));
        for (at, count) in [(0, full as u64), (1, full as u64), (2, 5)] {
            for slot in 0..count {
                let (number, bytes) = listed.next().unwrap();
                let entry = entry(&file, at, slot).unwrap().unwrap();
                assert_eq!((entry.page as u64, entry.slot as u64), (at, slot));
                assert_eq!(entry.key, &bytes[..settings.key_len()]);
                let told = (entry.size, entry.archive, entry.offset);
                assert_eq!(told, (number, 0, 7 * u64::from(number)));
            }
            for past in [count, 1 << 32, u64::MAX] {
                assert_eq!(entry(&file, at, past), Ok(None));
            }
        }
        for past in [3, 1 << 32, u64::MAX] {
            assert_eq!(entry(&file, past, 0), Ok(None));
        }
        assert_eq!(entry(&file[1..], 0, 0), Err(refusal::FILE_LENGTH));
    }
    assert_eq!(entry(&file(K1_W4, &[]), 0, 0), Ok(None));
    assert_eq!(entry(&[], 0, 0), Err(refusal::INDEX_TOO_SHORT));
}

#[test]
fn what_is_written_is_checked_and_listed() {
    for (key_length, offset_width) in [(2, 4), (7, 5), (16, 6)] {
        let settings = settings(key_length, offset_width);
        let full = settings.entries_per_page();
        for entries in [0, 1, full - 1, full, full + 1, 3 * full + 5] {
            let written = counted_list(settings, entries, 0, 3);
            let file = file(settings, &written);
            let index = check(&file).unwrap();
            assert_eq!(index.settings(), settings);
            assert_eq!(index.entries(), entries);
            assert_eq!(index.pages(), entries.div_ceil(full));

            let mut output = vec![0xee; written.len() + 5];
            assert_eq!(list(&file, &mut output), Ok(written.len()));
            assert_eq!(output[..written.len()], written);
            assert_eq!(output[written.len()..], [0xee; 5]);
        }
    }
}

#[test]
fn the_writer_refuses_in_its_order() {
    let wrong = [
        Settings {
            version: 2,
            ..K1_W4
        },
        settings(0, 4),
        settings(17, 4),
        settings(1, 3),
        settings(1, 7),
    ];
    for settings in wrong {
        assert_eq!(refused_write(settings, &[0], 0), refusal::SETTINGS);
    }

    // Not whole entries, and too many; then too many, and none rising; then not rising.
    let length = (MOST_ENTRIES + 1) * K1_W4.entry_len();
    let zeros = vec![0; length + 1];
    assert_eq!(refused_write(K1_W4, &zeros, 0), refusal::LIST_NOT_WHOLE);
    let zeros = &zeros[..length];
    assert_eq!(refused_write(K1_W4, zeros, 0), refusal::TOO_MANY_ENTRIES);
    let zeros = &zeros[..length - K1_W4.entry_len()];
    assert_eq!(refused_write(K1_W4, zeros, 0), refusal::order(1));

    let mut list = counted_list(K1_W4, 6, 10, 10);
    list[4 * K1_W4.entry_len()] = 40;
    list[5 * K1_W4.entry_len()] = 0;
    assert_eq!(refused_write(K1_W4, &list, 0), refusal::order(4));
    let list = counted_list(K1_W4, 6, 0, 1);
    let room = K1_W4.file_len(6) - 1;
    assert_eq!(refused_write(K1_W4, &list, room), refusal::OUTPUT_TOO_SHORT);
}

#[test]
fn the_writer_leaves_what_comes_after() {
    let list = counted_list(K1_W4, 6, 0, 1);
    let mut output = vec![0xee; K1_W4.file_len(6) + 3];
    assert_eq!(write(K1_W4, &list, &mut output), Ok(K1_W4.file_len(6)));
    assert_eq!(output[K1_W4.file_len(6)..], [0xee; 3]);
    assert!(check(&output[..K1_W4.file_len(6)]).is_ok());
}

/// Every key of two bytes, in indexes of none to all of them: found or absent as by the plain
/// reading, and the bound both kept and met.
#[test]
fn the_lookup_agrees_with_the_plain_reading() {
    let settings = settings(2, 5);
    let full = settings.entries_per_page();
    for (entries, first, step) in [
        (0, 0, 1),
        (1, 300, 1),
        (2, 0, 65_535),
        (full, 1, 5),
        (3 * full - 1, 0, 17),
        (8 * full, 9, 2),
    ] {
        let file = file(settings, &counted_list(settings, entries, first, step));
        let index = check(&file).unwrap();
        let bound = bound(&file).unwrap();
        let mut most = 0;
        for key in (0..=u16::MAX).step_by(3) {
            let key = key.to_be_bytes();
            let answer = lookup(&file, &key).unwrap();
            assert_eq!(answer.found, index.plain_reading(&key));
            assert!(answer.compared <= bound);
            most = most.max(answer.compared);
        }
        if entries >= full {
            assert_eq!(most, bound);
        }
    }
}

#[test]
fn the_bound() {
    // E is 170, of 8 binary digits.
    for (pages, digits) in [(0, 0), (1, 1), (2, 2), (3, 2), (4, 3), (7, 3), (8, 4)] {
        let file = file(K16_W4, &counted_list(K16_W4, pages * 170, 0, 1));
        assert_eq!(bound(&file), Ok(digits + 8 + 1), "{pages} pages");
    }
}

#[test]
fn a_location_with_an_archive_number() {
    let settings = settings(1, 6);
    let file = file(settings, &[5, 0, 0, 0, 7, 0x12, 0x34, 0, 0, 0, 9]);
    let found = lookup(&file, &[5]).unwrap().found.unwrap();
    assert_eq!(found.location, 0x1234_0000_0009);
}

#[test]
fn a_lookup_makes_only_its_own_checks() {
    let list = counted_list(K1_W4, 6, 10, 10);
    let good = file(K1_W4, &list);
    for key in [&[][..], &[10, 0]] {
        assert_eq!(lookup(&good, key), Err(refusal::SOUGHT_KEY_LENGTH));
    }
    let mut bad = good.clone();
    let footer_hash = bad.len() - 1;
    bad[footer_hash] ^= 1;
    assert_eq!(lookup(&bad, &[]), Err(refusal::FOOTER_HASH));
    assert_eq!(bound(&bad), Err(refusal::FOOTER_HASH));
    assert_eq!(
        lookup(&bad[..FOOTER - 1], &[]),
        Err(refusal::INDEX_TOO_SHORT)
    );

    // The stored last key too high: the page is chosen, and no slot of it. Six slots are halved at
    // 3, 5 and then none are left.
    let mut bad = good.clone();
    bad[PAGE] = 90;
    assert_eq!(check(&bad).err(), Some(refusal::last_key(0)));
    let absent = Lookup {
        found: None,
        compared: 3,
    };
    assert_eq!(lookup(&bad, &[70]), Ok(absent));

    // Keys out of order: the halving misses what the plain reading finds.
    let mut bad = good.clone();
    bad[0] = 35;
    assert_eq!(check(&bad).err(), Some(refusal::page_hash(0)));
    let index = Index::open(&bad).unwrap();
    assert_eq!(lookup(&bad, &[30]).unwrap().found.unwrap().slot, 2);
    assert_eq!(lookup(&bad, &[35]).unwrap().found, None);
    assert_eq!(index.plain_reading(&[35]).unwrap().slot, 0);
}

#[test]
fn listings() {
    let expect = |file: &[u8], text: &str| {
        assert_eq!(listing(file).as_deref(), Ok(text));
        assert_eq!(printed(file), text);
    };
    let paper = file(K1_W4, &[5, 0, 0, 0, 7, 0, 0, 0, 9]);
    let text = "index key=1 offset=4 entries=1 pages=1\n05 7 - 9\n";
    expect(&paper, text);

    let five = file(settings(2, 5), &[0xab, 0, 0, 0, 0, 0, 1, 0, 0, 0, 2]);
    let text = "index key=2 offset=5 entries=1 pages=1\nab00 0 - 4294967298\n";
    expect(&five, text);

    let six = [
        [0, 0, 1, 0, 0, 0x12, 0x34, 0, 0, 0, 9],
        [0xff, 0xff, 0xff, 0xff, 0xff, 0, 0, 0xff, 0xff, 0xff, 0xff],
    ];
    let six = file(settings(1, 6), six.as_flattened());
    let text =
        "index key=1 offset=6 entries=2 pages=1\n00 65536 4660 9\nff 4294967295 0 4294967295\n";
    expect(&six, text);

    let none = file(K16_W4, &[]);
    let text = "index key=16 offset=4 entries=0 pages=0\n";
    expect(&none, text);

    let three = file(K16_W4, &counted_list(K16_W4, 341, 0, 1));
    let text = listing(&three).unwrap();
    assert!(text.starts_with("index key=16 offset=4 entries=341 pages=3\n"));
    assert!(text.ends_with("\n00000000000000000000000000000154 340 - 2380\n"));
    assert_eq!(text.lines().count(), 342);
}

#[test]
fn listings_that_are_refused() {
    let expect = |file: &[u8], refusal, line: &str| {
        assert_eq!(listing(file), Err(refusal));
        assert_eq!(printed(file), line);
    };
    expect(&[], refusal::INDEX_TOO_SHORT, "refused 1\n");
    let list = counted_list(K16_W4, 171, 0, 1);
    let good = file(K16_W4, &list);
    for (place, refusal, line) in [
        (PAGE - 1, refusal::page_hash(0), "refused 6 at 0\n"),
        (2 * PAGE - 1, refusal::page_hash(1), "refused 6 at 1\n"),
        (2 * PAGE + 31, refusal::last_key(1), "refused 9 at 1\n"),
        (good.len() - 1, refusal::FOOTER_HASH, "refused 3\n"),
    ] {
        let mut bad = good.clone();
        bad[place] ^= 1;
        expect(&bad, refusal, line);
    }

    // No index is as long as the limit.
    let limit = [vec![0; MOST_LISTED - FOOTER], file(K16_W4, &[])].concat();
    expect(&limit, refusal::FILE_LENGTH, "refused 5\n");
    let longer = vec![0; MOST_LISTED + 1];
    expect(&longer, refusal::LISTING_INPUT, "refused 70\n");
}
