//! Many keys in many indexes: however they are searched, the first index that has a key answers.

mod run;

use std::path::Path;

use forge::counted::{W4, index, key, list, of_list};
use run::{Run, folder, put, run};
use second::index::Settings;

const NINE: Settings = Settings {
    version: 1,
    offset_width: 4,
    key_length: 9,
};

/// How many entries each index has; the second and third have those of the first too.
const ENTRIES: [u32; 3] = [400, 1000, 1000];

/// An index of 9-byte keys, three of the same keys, and one without entries.
fn build(folder: &Path) {
    for (number, entries) in ENTRIES.into_iter().enumerate() {
        let bytes = index(W4, entries, 100_000 * number as u64);
        put(folder, format!("all/{number}.index"), bytes);
    }
    let keys = list(NINE, 1, 7);
    put(folder, "all/0-nine.index", of_list(NINE, &keys));
    put(folder, "all/0-none.index", index(W4, 0, 0));
}

/// The line of the key of this number.
fn line(number: u32, row: usize) -> String {
    let key = key(number);
    match ENTRIES.iter().position(|&entries| number < entries) {
        Some(index) => {
            let (size, offset) = (7 + 3 * number, 100_000 * index as u32 + 5 * number);
            format!("found\t{key}\t{size}\t-\t{offset}\tall/{index}.index\t{row}\n")
        }
        None => format!("absent\t{key}\t{row}\n"),
    }
}

fn find(folder: &Path, numbers: &[u32], options: &[&str]) -> Run {
    let rows = numbers.iter().map(|&number| key(number) + "\n");
    put(folder, "list", rows.collect::<String>());
    let find = ["index", "find", "--index", "all", "--worklist", "list"];
    run(folder, find.iter().chain(options))
}

/// Many keys go through the entries of an index side by side; few are looked up one by one.
#[test]
fn many_keys_and_few() {
    let folder = folder("search_many");
    build(&folder);
    // Every number up to 3000 once, and each third twice, in no order.
    let many: Vec<u32> = (0..4000).map(|row| row * 7919 % 3000).collect();
    for numbers in [
        &many[..],
        &many[..600],
        &many[..200],
        &many[..1],
        &[0, 999, 399, 400],
    ] {
        let rows = numbers.iter().zip(1..);
        let lines: String = rows.map(|(&number, row)| line(number, row)).collect();
        for options in [&[][..], &["--unchecked"]] {
            let status = i32::from(lines.contains("absent"));
            find(&folder, numbers, options).expect(status, &lines, &[", no header: "]);
        }
    }
}
