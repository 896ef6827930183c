//! Many ids of a root file beside single lookups of each, and beside a hash map of its records.

use std::hint::black_box;

use fuzz::counts::grouped;
use fuzz::export::{ANSWERED, Given, ROOT_FIND, ROOT_FIND_MANY};

use crate::measure::{Contender, mixed, seconds};
use crate::root::{File, LOCALE};
use crate::table::{duration, library};

/// How many blocks the file has.
const BLOCKS: u32 = 400;

/// How many ids are sought.
const IDS: [usize; 3] = [1000, 10_000, 100_000];

/// How many of the single lookups are timed; the time of all is as many times that.
const TIMED: usize = 20;

/// How many bytes are written for each id.
pub const FOUND: usize = 20;

/// `ids` ids that rise, nine in ten of them in a file of `records` records, as bytes.
pub fn rising(ids: usize, records: usize) -> Vec<u8> {
    let most = records as u64 * 10 / 9;
    let mut ids: Vec<u32> = (0..ids as u64)
        .map(|number| (mixed(number) % most) as u32)
        .collect();
    ids.sort_unstable();
    ids.into_iter().flat_map(u32::to_be_bytes).collect()
}

/// Prints the table.
pub fn print() {
    println!();
    println!(
        "| Ids, of 1,500,000 records | `root_find_many` | `root_find` of each | HashMap by the second \
         program | Many / each | Many / HashMap |"
    );
    println!("|---|---|---|---|---|---|");
    let file = File::new(None, BLOCKS, 1000);
    assert_eq!(file.records(), 1_500_000);
    for ids in IDS {
        print_line(&file, ids);
    }
}

fn print_line(file: &File, count: usize) {
    let ids = rising(count, file.records());
    let (mut by_library, mut by_second) = (vec![0; FOUND * count], vec![0; FOUND * count]);
    let given = Given::new([&file.bytes, &ids], [LOCALE.into(), 0]);
    let mut contenders: [Contender; 3] = [
        Box::new(|times| {
            for _ in 0..times {
                let result = library(&ROOT_FIND_MANY, &given, &mut by_library, &mut [0; 8]);
                assert_eq!(black_box(result), ANSWERED);
            }
        }),
        Box::new(|times| (0..times).for_each(|_| find_each(file, &ids, count / TIMED))),
        Box::new(|times| {
            for _ in 0..times {
                black_box((ROOT_FIND_MANY.second)(&given, &mut by_second));
            }
        }),
    ];
    let mut times = seconds(&mut contenders);
    drop(contenders);
    assert!(by_library == by_second, "the outputs differ");
    times[1] *= (count / TIMED) as f64;
    let shown: Vec<_> = times.iter().map(|&time| duration(time)).collect();
    println!(
        "| {} | {} | {:.0} | {:.2} |",
        grouped(count as u64),
        shown.join(" | "),
        times[1] / times[0],
        times[2] / times[0]
    );
}

/// The single lookups of ids that are so far apart in the list.
fn find_each(file: &File, ids: &[u8], step: usize) {
    for &id in ids.as_chunks::<4>().0.iter().step_by(step) {
        let numbers = [u32::from_be_bytes(id).into(), LOCALE.into(), 0];
        let given = Given::new([&file.bytes], numbers);
        black_box(library(&ROOT_FIND, &given, &mut [0; 16], &mut [0; 8]));
    }
}
