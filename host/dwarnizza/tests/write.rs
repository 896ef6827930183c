//! The writer of archive indexes: the library against the second program, and what is written
//! against the full check and the list.

mod compare;

use compare::{compare_outputs, in_library_settings, in_library_terms, refusal_at};
use dwarnizza::index::Summary;
use dwarnizza::{Index, Reason, Refusal};
use forge::faults::index::{
    IndexFile, VERSION, all_settings, count_down, counted_list, keys, neighbour_lists, random_list,
    settings,
};
use forge::random::Random;
use second::index::{FOOTER, MOST_ENTRIES, Settings};

/// The file by the library in an output of this size, compared with the second program's.
#[track_caller]
fn compare(settings: Settings, list: &[u8], room: usize) -> Result<Vec<u8>, Refusal> {
    let length = second::index::written_length(settings, list).map_err(in_library_terms);
    let told = Index::written_length(in_library_settings(settings), list);
    assert_eq!(told, length);
    compare_outputs(
        room,
        |output| Index::write_into(in_library_settings(settings), list, output),
        |output| second::index::write(settings, list, output).map_err(in_library_terms),
    )
}

/// The file of a list that may be written, in outputs of all kinds.
#[track_caller]
fn written(settings: Settings, list: &[u8]) -> Vec<u8> {
    let length = Index::written_length(in_library_settings(settings), list)
        .expect("the list may be written");
    let short = refusal_at(Reason::OutputShort, 0);
    assert_eq!(compare(settings, list, length - 1), Err(short));
    let file = compare(settings, list, length).expect("the list may be written");
    assert_eq!(file.len(), length);
    assert!(compare(settings, list, length + 1000).as_ref() == Ok(&file));
    file
}

/// Both programs refuse the list so, whatever the output.
#[track_caller]
fn expect_refused(settings: Settings, list: &[u8], reason: Reason, place: usize) {
    for room in [0, FOOTER, 3 * list.len() + 10_000] {
        let answer = compare(settings, list, room);
        assert_eq!(answer, Err(refusal_at(reason, place)));
    }
}

/// The list of a file that passes the full check, and what the full check says of it.
#[track_caller]
fn read_back(file: &[u8]) -> (Summary, Vec<u8>) {
    let index = Index::check(file).expect("the file is good");
    (index.summary(), index.list())
}

/// What is written is the file of the layout, and gives list and settings back.
#[track_caller]
fn round_trip(settings: Settings, list: &[u8], file: &[u8]) {
    let entries = list.len() / settings.entry_len();
    let (summary, listed) = read_back(file);
    assert_eq!(summary.settings, in_library_settings(settings));
    assert_eq!(summary.entries, entries);
    assert_eq!(summary.pages, settings.pages(entries));
    assert!(listed == list, "another list comes back");
    assert!(
        file == IndexFile::new(settings, list).bytes,
        "another file is written"
    );
}

/// The list of a good file with any contents hash, written again, gives the same file but for that
/// hash.
#[track_caller]
fn round_trip_of_file(random: &mut Random, good: &IndexFile) {
    let mut other = good.clone();
    other.footer()[..VERSION].copy_from_slice(&random.array::<VERSION>());
    let (summary, listed) = read_back(&other.bytes);
    let again = Index::write(summary.settings, &listed).expect("the list may be written");
    assert_eq!(again.len(), other.bytes.len());
    let contents_hash = again.len() - FOOTER..again.len() - FOOTER + VERSION;
    assert!(again[..contents_hash.start] == other.bytes[..contents_hash.start]);
    assert!(again[contents_hash.end..] == other.bytes[contents_hash.end..]);
    assert!(again[contents_hash.clone()] == good.bytes[contents_hash]);
}

#[test]
fn round_trips_of_every_layout() {
    let mut random = Random::of_test();
    let mut files = 0;
    for settings in all_settings() {
        let full = settings.entries_per_page();
        let mut counts = vec![0, 1, 2, full - 1, full, full + 1, 2 * full, 5 * full + 7];
        counts.extend((0..12).map(|_| random.up_to(3 * full)));
        for entries in counts.into_iter().filter(|&n| n <= keys(settings)) {
            for version in 0..=1 {
                let settings = Settings {
                    version,
                    ..settings
                };
                let list = random_list(&mut random, settings, entries);
                round_trip(settings, &list, &written(settings, &list));
                round_trip_of_file(&mut random, &IndexFile::new(settings, &list));
                files += 1;
            }
        }
    }
    println!("{files} round trips");
}

#[test]
fn the_zero_key_is_a_key() {
    for settings in all_settings() {
        let list = counted_list(settings, 3);
        round_trip(settings, &list, &written(settings, &list));
        let zeros = vec![0; 3 * settings.entry_len()];
        expect_refused(settings, &zeros, Reason::IndexOrder, 1);
    }
}

/// All values of each setting, with a list of no entries and with one that is not whole.
#[test]
fn every_setting() {
    let with = |version, offset_width, key_length| Settings {
        version,
        offset_width,
        key_length,
    };
    for value in 0..=255 {
        for (settings, allowed) in [
            (with(value, 4, 16), value <= 1),
            (with(1, value, 16), (4..=6).contains(&value)),
            (with(1, 4, value), (1..=16).contains(&value)),
        ] {
            if allowed {
                round_trip(settings, &[], &written(settings, &[]));
                expect_refused(settings, &[0], Reason::ListLength, 0);
            } else {
                expect_refused(settings, &[], Reason::Settings, 0);
                expect_refused(settings, &[0], Reason::Settings, 0);
            }
        }
    }
}

/// Every length up to some entries.
#[test]
fn lists_that_are_not_whole() {
    for settings in all_settings() {
        let list = counted_list(settings, 5);
        for length in 0..list.len() {
            if length.is_multiple_of(settings.entry_len()) {
                written(settings, &list[..length]);
            } else {
                expect_refused(settings, &list[..length], Reason::ListLength, 0);
            }
        }
    }
}

/// Two neighbours that differ in one byte only, at each place of the key, as unsigned bytes.
#[test]
fn keys_are_compared_whole_and_unsigned() {
    for settings in all_settings() {
        for mut list in neighbour_lists(settings) {
            round_trip(settings, &list, &written(settings, &list));
            let (one, other) = list.split_at_mut(settings.entry_len());
            one.swap_with_slice(other);
            expect_refused(settings, &list, Reason::IndexOrder, 1);
        }
    }
}

/// Each entry of three pages with the key of the one before or a lower one, alone and with others
/// after it.
#[test]
fn the_first_entry_out_of_order() {
    let mut random = Random::of_test();
    for settings in [settings(16, 4), settings(2, 5), settings(9, 6)] {
        let entries = 2 * settings.entries_per_page() + 20;
        let good = random_list(&mut random, settings, entries);
        for first in 1..entries {
            let mut list = good.clone();
            put_out_of_order(&mut random, settings, &mut list, first);
            if first % 3 == 0 {
                let later = first + random.up_to(entries - 1 - first);
                put_out_of_order(&mut random, settings, &mut list, later);
            }
            let room = [0, settings.file_len(entries)][random.up_to(1)];
            let refused = refusal_at(Reason::IndexOrder, first);
            assert_eq!(compare(settings, &list, room), Err(refused));
        }
    }
}

/// Gives an entry, not the first, the key of the one before, or now and then the next lower one.
fn put_out_of_order(random: &mut Random, settings: Settings, list: &mut [u8], entry: usize) {
    let start = entry * settings.entry_len();
    let (before, at) = list.split_at_mut(start);
    let key = &mut at[..settings.key_len()];
    key.copy_from_slice(&before[start - settings.entry_len()..][..settings.key_len()]);
    if random.up_to(1) == 0 {
        count_down(key);
    }
}

/// The faults of what is to be written, in the order of their refusals.
const FAULTS: [Reason; 5] = [
    Reason::Settings,
    Reason::ListLength,
    Reason::EntryCount,
    Reason::IndexOrder,
    Reason::OutputShort,
];

/// Each set of faults, so each two of them too: the first in order is told.
#[test]
fn the_order_of_refusals() {
    // Of three bytes there are enough keys for too many entries.
    let good = settings(3, 4);
    let mut list = counted_list(good, MOST_ENTRIES + 2);
    let second_key = list[good.entry_len()..][..good.key_len()].to_vec();
    for set in 0..1 << FAULTS.len() {
        let has = |reason: Reason| {
            let turn = FAULTS.iter().position(|&fault| fault == reason);
            set >> turn.expect("this is one of them") & 1 == 1
        };
        let settings = Settings {
            version: if has(Reason::Settings) { 2 } else { 1 },
            ..good
        };
        let entries = if has(Reason::EntryCount) {
            MOST_ENTRIES + 1
        } else {
            3
        };
        let length = entries * good.entry_len() + usize::from(has(Reason::ListLength));
        let key = &mut list[good.entry_len()..][..good.key_len()];
        match has(Reason::IndexOrder) {
            true => key.fill(0),
            false => key.copy_from_slice(&second_key),
        }
        let room = match has(Reason::OutputShort) {
            true => good.file_len(3) - 1,
            false => good.file_len(entries),
        };
        let answer = compare(settings, &list[..length], room);
        let expected = FAULTS.into_iter().find(|&reason| has(reason));
        assert_eq!(answer.err().map(|refusal| refusal.reason), expected);
    }
}

/// As many entries as an index may have.
#[test]
fn the_limit_of_entries() {
    let settings = settings(3, 4);
    let list = counted_list(settings, MOST_ENTRIES);
    let file = compare(settings, &list, settings.file_len(MOST_ENTRIES));
    let (summary, listed) = read_back(&file.expect("this many may be written"));
    assert_eq!(summary.entries, MOST_ENTRIES);
    assert!(listed == list, "another list comes back");
}
