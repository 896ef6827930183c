//! Lookups in an index beside the same entries parsed beforehand, for information.

use std::collections::HashMap;

use fuzz::counts::grouped;
use fuzz::export::ANSWERED;

use crate::index::{File, SEARCHED, SETTINGS, key, lookup};
use crate::keys::{Key, Sought, each};
use crate::measure::seconds;
use crate::table::duration;

/// Size and location.
type Value = (u32, u32);

/// The same entries in all forms.
struct Forms {
    file: File,
    sorted: Vec<(Key, Value)>,
    map: HashMap<Key, Value>,
}

impl Forms {
    fn new(entries: usize) -> Self {
        let file = File::new(entries);
        let parsed = file.list.chunks_exact(SETTINGS.entry_len()).map(entry);
        let sorted: Vec<_> = parsed.collect();
        Self {
            map: sorted.iter().copied().collect(),
            sorted,
            file,
        }
    }

    fn library(&self, key: &Key) -> Option<Value> {
        let (result, words) = lookup(&self.file.index, key);
        (result == ANSWERED).then_some((words[2] as u32, words[3] as u32))
    }

    fn sorted(&self, key: &Key) -> Option<Value> {
        let place = self.sorted.binary_search_by(|(stored, _)| stored.cmp(key));
        place.ok().map(|place| self.sorted[place].1)
    }

    fn map(&self, key: &Key) -> Option<Value> {
        self.map.get(key).copied()
    }
}

/// An entry of a list.
fn entry(bytes: &[u8]) -> (Key, Value) {
    let (key, rest) = bytes.split_first_chunk().expect("16 bytes are the key");
    let (numbers, _) = rest.as_chunks();
    (
        *key,
        (
            u32::from_be_bytes(numbers[0]),
            u32::from_be_bytes(numbers[1]),
        ),
    )
}

/// Prints the table.
pub fn print() {
    println!();
    println!(
        "| Lookup, found | Library | Sorted Vec | HashMap | Library / Vec | Library / HashMap |"
    );
    println!("|---|---|---|---|---|---|");
    for entries in SEARCHED {
        print_line(entries);
    }
}

fn print_line(entries: usize) {
    let forms = Forms::new(entries);
    let keys = Sought::Found.keys(entries, key);
    for key in &keys {
        let found = [forms.library(key), forms.sorted(key)];
        assert_eq!(found, [forms.map(key); 2], "the answers differ");
    }
    let mut contenders = [
        each(&keys, |key| forms.library(key)),
        each(&keys, |key| forms.sorted(key)),
        each(&keys, |key| forms.map(key)),
    ];
    let times = seconds(&mut contenders);
    let shown: Vec<_> = times.iter().map(|&time| duration(time)).collect();
    println!(
        "| {} entries | {} | {:.2} | {:.2} |",
        grouped(entries as u64),
        shown.join(" | "),
        times[1] / times[0],
        times[2] / times[0]
    );
}
