//! Keys compared byte by byte beside the library, which compares eight bytes at once: the
//! comparison alone, and lookups in an index.

use std::cmp::Ordering;
use std::hint::black_box;

use fuzz::counts::grouped;
use fuzz::export::{Given, INDEX_LOOKUP};

use crate::index::{self, File};
use crate::keys::{COUNT, Key, Sought, both, each};
use crate::measure::{Contender, mixed, seconds};
use crate::table::duration;
use crate::ways::{BYTES, EIGHTS, Way};

/// How many bytes the keys have that are random from the first byte on.
const LENGTHS: [usize; 5] = [1, 8, 9, 15, 16];

/// How many bytes the keys have that differ only after eight equal ones.
const LONG: [usize; 3] = [9, 15, 16];

/// How many bytes the keys of the searched indexes have, and how many entries the indexes.
const SEARCHED: [(usize, usize); 7] = [
    (16, 1700),
    (16, 50_000),
    (16, 8_388_608),
    (8, 50_000),
    (9, 50_000),
    (15, 50_000),
    (1, 200),
];

/// Prints the tables.
pub fn print() {
    print_comparisons();
    print_lookups();
}

fn print_comparisons() {
    println!();
    println!(
        "| Comparison alone | Byte by byte | Eight at once | Ratio \
         | Byte by byte, waiting | Eight at once, waiting | Ratio |"
    );
    println!("|---|---|---|---|---|---|---|");
    for length in LONG {
        Pairs::after_eight(length).print_line("after eight equal bytes");
    }
    for length in LENGTHS {
        Pairs::of_lookups(length).print_line("random, as lookups meet them");
    }
    for length in LENGTHS {
        Pairs::rising(length).print_line("random, each with the next above it");
    }
    for length in LENGTHS {
        Pairs::random(length).print_line("random, in no order");
    }
}

/// Pairs of keys that are compared.
struct Pairs {
    length: usize,
    pairs: Vec<[Key; 2]>,
}

impl Pairs {
    fn new(length: usize, pairs: impl Iterator<Item = [Key; 2]>) -> Self {
        Self {
            length,
            pairs: pairs.take(COUNT as usize).collect(),
        }
    }

    /// Keys that have the first eight bytes in common.
    fn after_eight(length: usize) -> Self {
        let key = |number: u64| both(mixed(0), mixed(!number));
        Self::new(length, (0..).map(|number| [number, number + 1].map(key)))
    }

    /// Keys that have nothing in common.
    fn random(length: usize) -> Self {
        Self::new(
            length,
            (0..).map(|number| [number, number + 1].map(random_key)),
        )
    }

    /// Each key of a rising list and the next.
    fn rising(length: usize) -> Self {
        let keys = rising_keys(length);
        let next = keys.clone().into_iter().skip(1);
        Self::new(
            length,
            keys.into_iter().zip(next).map(<[_; 2]>::from).cycle(),
        )
    }

    /// Sought keys, each with the keys of a rising list that the halving rule compares.
    fn of_lookups(length: usize) -> Self {
        let keys = rising_keys(length);
        let sought = (COUNT..).map(random_key);
        let ways = sought.flat_map(|sought| {
            let compared = halving_way(&keys, &sought, length);
            compared.into_iter().map(move |stored| [stored, sought])
        });
        Self::new(length, ways)
    }

    /// A pair as it is compared.
    fn cut<'a>(&self, pair: &'a [Key; 2]) -> [&'a [u8]; 2] {
        pair.each_ref().map(|key| &key[..self.length])
    }

    /// Sees that both comparisons say what Rust does.
    fn try_out(&self) {
        for pair in &self.pairs {
            let [a, b] = self.cut(pair);
            let said = match a.cmp(b) {
                Ordering::Less => 0,
                Ordering::Equal => 1,
                Ordering::Greater => 2,
            };
            assert_eq!([BYTES.compare(a, b), EIGHTS.compare(a, b)], [said; 2]);
        }
    }

    /// Times both comparisons and prints their line.
    fn print_line(&self, kind: &str) {
        self.try_out();
        let compare = |way: Way| {
            move |pair: &[Key; 2]| {
                let [a, b] = self.cut(pair);
                way.compare(a, b)
            }
        };
        let [bytes, eights] = [BYTES, EIGHTS].map(compare);
        let mut contenders = [
            each(&self.pairs, bytes),
            each(&self.pairs, eights),
            waiting(&self.pairs, bytes),
            waiting(&self.pairs, eights),
        ];
        let times = seconds(&mut contenders);
        print_times(&format!("K {}, {kind}", self.length), &times);
    }
}

/// Compares one pair after the other, each once the answer before is there: it is among what tells
/// where the next pair lies.
fn waiting<'a>(pairs: &'a [[Key; 2]], call: impl Fn(&[Key; 2]) -> u32 + 'a) -> Contender<'a> {
    let mut number = 0;
    Box::new(move |times| {
        let mut answer = 0;
        for _ in 0..times {
            // No answer is above 2, but the compiler does not know it.
            let late = (answer >> 2) as usize;
            answer = call(&pairs[(number + late) % COUNT as usize]);
            number += 1;
        }
        black_box(answer);
    })
}

/// The key with a number, of keys that have nothing in common.
fn random_key(number: u64) -> Key {
    both(mixed(number), mixed(!number))
}

/// Random keys, of which the first `length` bytes rise strictly. There are 256 keys of one byte.
fn rising_keys(length: usize) -> Vec<Key> {
    let mut keys: Vec<_> = (0..COUNT).map(random_key).collect();
    keys.sort_unstable();
    keys.dedup_by_key(|key| key[..length].to_vec());
    keys
}

/// The keys that the halving rule compares with a sought one.
fn halving_way(keys: &[Key], sought: &Key, length: usize) -> Vec<Key> {
    let (mut left, mut compared) = (keys, Vec::new());
    while !left.is_empty() {
        let (before, after) = left.split_at(left.len() / 2);
        let middle = after[0];
        compared.push(middle);
        let below = middle[..length] < sought[..length];
        left = if below { &after[1..] } else { before };
    }
    compared
}

fn print_lookups() {
    println!();
    println!("| Lookup | Byte by byte | Eight at once | Ratio |");
    println!("|---|---|---|---|");
    for (length, entries) in SEARCHED {
        let file = File::with_keys(length, entries);
        for sought in [Sought::Found, Sought::Absent] {
            print_lookup(&file, sought);
        }
    }
}

/// Times the lookups of keys and prints their line, after seeing that both say what the library does.
fn print_lookup(file: &File, sought: Sought) {
    let (index, length) = (&file.index, file.settings.key_len());
    let keys = sought_in(file, sought);
    for key in &keys {
        let key = &key[..length];
        let found = index::lookup(index, key);
        assert_eq!(found.0, sought.result());
        assert_eq!(
            [BYTES, EIGHTS].map(|way| way.lookup(index, key)),
            [found; 2]
        );
    }
    let by = |way: Way| each(&keys, move |key| way.lookup(index, &key[..length]));
    let times = seconds(&mut [by(BYTES), by(EIGHTS)]);
    let entries = grouped(file.entries as u64);
    let kind = sought.kind();
    print_times(&format!("K {length}, {entries} entries{kind}"), &times);
}

/// Keys that the second program finds in an index, or does not find. Of short keys some that are
/// made at random are there.
fn sought_in(file: &File, sought: Sought) -> Vec<Key> {
    let keys = sought.all_keys(file.entries, index::key);
    let fitting = keys.filter(|key| {
        let given = Given::new([&file.index, &key[..file.settings.key_len()]], []);
        (INDEX_LOOKUP.second)(&given, &mut []).result == sought.result()
    });
    fitting.take(COUNT as usize).collect()
}

/// Prints a line with the times of old and new, and their ratio, for each kind of call.
fn print_times(name: &str, times: &[f64]) {
    let columns = times.chunks_exact(2).map(|pair| {
        let [bytes, eights] = [pair[0], pair[1]];
        let ratio = bytes / eights;
        format!(" {} | {} | {ratio:.2} |", duration(bytes), duration(eights))
    });
    println!("| {name} |{}", columns.collect::<String>());
}
