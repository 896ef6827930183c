//! Paths: their name hashes, and lookups by path beside lookups by id.

use std::hint::black_box;

use fuzz::counts::grouped;
use fuzz::export::{ANSWERED, Export, Given, NAME_HASH, ROOT_FIND, ROOT_FIND_PATH};

use crate::measure::{Contender, seconds};
use crate::root::{File, LOCALE, LONG};
use crate::table::{Call, Table, duration, library};

/// How many bytes the paths have; 42 are usual.
const LENGTHS: [usize; 4] = [16, 42, 256, 1024];

/// How many blocks the root files have.
const BLOCKS: u32 = 400;

/// The path of a record, of 42 bytes where its number has nine digits at most.
pub fn path(number: usize) -> Vec<u8> {
    format!(r"Interface\Icons\INV_Misc_File{number:09}.blp").into_bytes()
}

/// A path of the greatest length.
fn longest() -> Vec<u8> {
    let mut longest = path(0).repeat(25);
    longest.truncate(1024);
    longest
}

/// Prints the lines.
pub fn measure(table: &mut Table) {
    let longest = longest();
    let paths = LENGTHS.map(|length| &longest[..length]);
    table.calls(paths.map(|path| Call {
        export: &NAME_HASH,
        kind: "",
        size: path.len(),
        unit: "B",
        given: Box::new(move |_| Given::new([path], [])),
        result: ANSWERED,
        output: 0,
        hashed: Vec::new(),
    }));
}

/// Prints the tables.
pub fn print() {
    print_hashes();
    print_lookups();
}

fn print_hashes() {
    println!();
    println!("| Path | `name_hash` | Second program | Library / second |");
    println!("|---|---|---|---|");
    let longest = longest();
    for length in LENGTHS {
        print_hash(&longest[..length]);
    }
}

fn print_lookups() {
    println!();
    println!(
        "| Lookup, of 1,500,000 records | `root_find_path` | `root_find` | By path by the second \
         program | Path / id | Library / second |"
    );
    println!("|---|---|---|---|---|---|");
    for (header, kind) in [(None, "without magic"), (LONG, "long header")] {
        let file = File::new(header, BLOCKS, 1000);
        assert_eq!(file.records(), 1_500_000);
        let (last, id) = (path(file.records() - 1), file.last_id(BLOCKS - 1));
        print_lookup(&format!("{kind}, the last record"), &file, &last, id);
        let absent = path(u32::MAX as usize);
        print_lookup(&format!("{kind}, absent"), &file, &absent, u32::MAX);
    }
}

/// Times the name hash of a path and prints its line.
fn print_hash(path: &[u8]) {
    let times = seconds(&mut both(&NAME_HASH, Given::new([path], [])));
    let rates = times.iter().map(|time| path.len() as f64 / time / 1e6);
    let shown: Vec<_> = rates.map(|rate| format!("{rate:.0} MB/s")).collect();
    println!(
        "| {} B | {} | {:.2} |",
        grouped(path.len() as u64),
        shown.join(" | "),
        times[1] / times[0]
    );
}

/// Times the lookups of one record by its path and by its id, and prints their line.
fn print_lookup(name: &str, file: &File, path: &[u8], id: u32) {
    let locale = LOCALE.into();
    let by_path = Given::new([&file.bytes, path], [locale, 0]);
    let [path, by_second] = both(&ROOT_FIND_PATH, by_path);
    let [id, _] = both(
        &ROOT_FIND,
        Given::new([&file.bytes], [id.into(), locale, 0]),
    );
    let times = seconds(&mut [path, id, by_second]);
    let shown: Vec<_> = times.iter().map(|&time| duration(time)).collect();
    println!(
        "| {name} | {} | {:.2} | {:.2} |",
        shown.join(" | "),
        times[1] / times[0],
        times[2] / times[0]
    );
}

/// A call by the library and by the second program, after seeing that they say the same.
fn both<'a>(export: &'static Export, given: Given<'a>) -> [Contender<'a>; 2] {
    let (mut by_library, mut by_second) = ([0; 16], [0; 16]);
    let mut answer = [0; 8];
    let result = library(export, &given, &mut by_library, &mut answer);
    let said = (export.second)(&given, &mut by_second);
    assert_eq!((result, answer), (said.result, said.words));
    assert_eq!(by_library, by_second);
    [
        Box::new(move |times| {
            for _ in 0..times {
                let given = black_box(&given);
                black_box(library(export, given, &mut by_library, &mut [0; 8]));
            }
        }),
        Box::new(move |times| {
            for _ in 0..times {
                black_box((export.second)(black_box(&given), &mut by_second));
            }
        }),
    ]
}
