//! The listing: the library against the second program and against stored texts.

mod compare;

use std::fs;
use std::path::Path;

use compare::{Tally, compare_outputs, in_library_terms, reason, refusal_at};
use dwarnizza::{Index, Reason, Refusal};
use forge::faults::index::{IndexFile, all_settings, counted_list, keys, random_list, settings};
use forge::random::Random;
use second::index::{FOOTER, MOST_LISTED, PAGE, Settings};

/// A text, or a refusal.
type Listing = Result<String, Refusal>;

/// The second program's listing.
fn second_listing(input: &[u8]) -> Listing {
    second::index::listing(input).map_err(in_library_terms)
}

/// What the library's listing of the input leaves in an output of this size, after seeing that the
/// length or the refusal is this one, and the output as it was without room or after a refusal.
#[track_caller]
fn compare(input: &[u8], listed: &Listing, room: usize) -> Result<Vec<u8>, Unwritten> {
    let fitting = |length| match length {
        Ok(length) if length <= room => Ok(length),
        Ok(length) => Err(Unwritten::NoRoom(length)),
        Err(refusal) => Err(Unwritten::Refused(refusal)),
    };
    compare_outputs(
        room,
        |output| fitting(Index::listing_into(input, output)),
        |output| {
            let length = fitting(listed.as_ref().map(String::len).map_err(|&r| r))?;
            let text = listed.as_ref().expect("a text fits");
            output[..length].copy_from_slice(text.as_bytes());
            Ok(length)
        },
    )
}

/// Why an output is as it was.
#[derive(Debug, PartialEq)]
enum Unwritten {
    NoRoom(usize),
    Refused(Refusal),
}

/// Both programs answer the input so, in outputs of all kinds.
#[track_caller]
fn expect(input: &[u8], listed: Listing) {
    assert!(
        second_listing(input) == listed,
        "the second program gives another answer"
    );
    let length = listed.as_ref().map_or(50, String::len);
    for room in [0, length - 1, length, length + 1000] {
        let written = compare(input, &listed, room);
        assert_eq!(written.is_ok(), listed.is_ok() && length <= room);
    }
    assert!(Index::listing(input) == listed, "another answer is given");
}

/// Both programs give this text.
#[track_caller]
fn expect_text(input: &[u8], text: &str) {
    expect(input, Ok(text.to_string()));
}

/// Both programs refuse the input.
#[track_caller]
fn expect_refused(input: &[u8], reason: Reason, place: usize) {
    expect(input, Err(refusal_at(reason, place)));
}

#[test]
fn the_example_of_the_paper() {
    let file = IndexFile::new(settings(1, 4), &[5, 0, 0, 0, 7, 0, 0, 0, 9]);
    let text = "index key=1 offset=4 entries=1 pages=1\n05 7 - 9\n";
    expect_text(&file.bytes, text);
}

/// The stored texts of the program.
#[test]
fn stored_texts() {
    let folder = Path::new(env!("CARGO_MANIFEST_DIR")).join("../../testdata/listing");
    let files = fs::read_dir(&folder).expect("the folder is there");
    let mut tally = Tally::new("stored texts");
    for file in files {
        let path = file.expect("the folder can be read").path();
        if path
            .extension()
            .is_none_or(|extension| extension != "index")
        {
            continue;
        }
        let input = fs::read(&path).expect("the file can be read");
        let text = fs::read_to_string(path.with_extension("txt"));
        let text = text.unwrap_or_else(|error| panic!("the text of {}: {error}", path.display()));
        assert!(second::index::printed(&input) == text, "another text");
        let listed = match refused(&text) {
            Some(refusal) => Err(refusal),
            None => Ok(text),
        };
        tally.add(&listed);
        expect(&input, listed);
    }
    tally.print([1].into_iter().chain(3..=9).chain([70]).chain(102..=108));
}

#[test]
fn every_layout() {
    let mut random = Random::of_test();
    for settings in all_settings() {
        let full = settings.entries_per_page();
        let counts = [0, 1, full - 1, full, full + 1, 3 * full + 7];
        for entries in counts.into_iter().filter(|&n| n <= keys(settings)) {
            let list = random_list(&mut random, settings, entries);
            let text = text_of(&IndexFile::new(settings, &list).bytes);
            assert_eq!(text.lines().count(), 1 + entries);
            for version in 0..=1 {
                let settings = Settings {
                    version,
                    ..settings
                };
                expect_text(&IndexFile::new(settings, &list).bytes, &text);
            }
        }
    }
}

/// Sizes, offsets and archive numbers of each number of digits.
#[test]
fn numbers() {
    let mut numbers = vec![
        u16::MAX.into(),
        u32::MAX.into(),
        (1 << 40) - 1,
        (1 << 48) - 1,
    ];
    numbers.extend((0..15).flat_map(|digits| {
        let power = 10_u64.pow(digits);
        [power - 1, power, power + 1]
    }));
    for width in 4..=6 {
        for &number in &numbers {
            let mut list = Vec::new();
            let mut text = format!("index key=1 offset={width} entries=3 pages=1\n");
            for (key, size, location) in [(0, number, 0), (1, 0, number), (2, 0, number << 32)] {
                let size = size as u32;
                list.push(key);
                list.extend(size.to_be_bytes());
                list.extend(&location.to_be_bytes()[8 - usize::from(width)..]);
                text += &format!("{key:02x} {size} {}\n", shown(width, location));
            }
            expect_text(
                &IndexFile::new(settings(1, width.into()), &list).bytes,
                &text,
            );
        }
    }
}

/// How the last bytes of a number are shown, which are the location.
fn shown(width: u8, number: u64) -> String {
    match width {
        4 => format!("- {}", number as u32),
        5 => format!("- {}", number & ((1 << 40) - 1)),
        _ => format!("{} {}", (number >> 32) as u16, number as u32),
    }
}

/// All bytes in a key.
#[test]
fn digits_of_keys() {
    for key_length in [1, 16] {
        let settings = settings(key_length, 4);
        let list = counted_list(settings, 256);
        let file = IndexFile::new(settings, &list).bytes;
        let text = text_of(&file);
        for (byte, line) in text.lines().skip(1).enumerate() {
            let zeros = "00".repeat(settings.key_len() - 1);
            assert!(line.starts_with(&format!("{zeros}{byte:02x} ")), "{line}");
        }
        expect_text(&file, &text);
    }
}

/// 65,536 bytes are listed; no index has just that length. One byte more is not, whatever it holds.
#[test]
fn the_limit_of_the_input() {
    let mut random = Random::of_test();
    let settings = settings(16, 4);
    let good = |entries: usize| IndexFile::new(settings, &counted_list(settings, entries)).bytes;
    let footer = good(0);
    for length in [MOST_LISTED - 1, MOST_LISTED, MOST_LISTED + 1, 1 << 20] {
        let [by_length, by_footer] = match length > MOST_LISTED {
            true => [refusal_at(Reason::ListingInput, 0); 2],
            false => [
                refusal_at(Reason::IndexLength, 0),
                refusal_at(Reason::FooterVersion, 8),
            ],
        };
        for filling in [vec![7; length], random.bytes(length)] {
            let mut filling = filling;
            filling[length - FOOTER + 8] |= 2;
            expect(&filling, Err(by_footer));
            let ended = [&filling[..length - FOOTER], &footer].concat();
            expect(&ended, Err(by_length));
        }
    }

    // The most pages, and one more.
    let full = settings.entries_per_page();
    let longest = good(15 * full);
    let text = text_of(&longest);
    assert_eq!(text.lines().count(), 1 + 15 * full);
    expect_text(&longest, &text);
    expect_refused(&good(15 * full + 1), Reason::ListingInput, 0);
}

/// The longest text of all: the most pages of the settings with the longest lines for their
/// entries, and the highest numbers.
#[test]
fn the_longest_text() {
    let lengths = all_settings().map(|settings| {
        let pages = (MOST_LISTED - FOOTER) / (PAGE + settings.key_len() + 8);
        let entries = (pages * settings.entries_per_page()).min(keys(settings));
        let mut list = counted_list(settings, entries);
        for entry in list.chunks_mut(settings.entry_len()) {
            entry[settings.key_len()..].fill(0xff);
        }
        let file = IndexFile::new(settings, &list).bytes;
        let text = text_of(&file);
        expect_text(&file, &text);
        text.len()
    });
    let longest = lengths.max().expect("there are settings");
    println!("the longest text has {longest} bytes");
}

/// The second program's listing of an input that is not refused.
fn text_of(input: &[u8]) -> String {
    second_listing(input).expect("the input is listed")
}

/// The refusal that a printed text is the line of.
fn refused(text: &str) -> Option<Refusal> {
    let mut words = text.strip_prefix("refused ")?.split_whitespace();
    let number = words.next()?.parse().expect("a number follows");
    let place = match words.next() {
        Some(_at) => words.next()?.parse().expect("a place follows"),
        None => 0,
    };
    Some(refusal_at(reason(number), place))
}
