//! One case: a file of one kind, and calls with it.

mod chain;
mod encoding;
mod envelope;
mod index;
mod key_text;
mod list;
mod md5;
mod path;
mod root;
mod worklist;

use crate::compare::{Comparison, Difference};
use forge::random::Random;

/// What a case ends with: the first difference, if there is one.
type Compared = Result<(), Box<Difference>>;

/// Makes one kind of case.
type Kind = fn(&mut Random, &mut Comparison) -> Compared;

/// Each kind, and how many of a hundred cases are of it.
const KINDS: [(usize, Kind); 11] = [
    (22, index::compare),
    (10, list::compare_written),
    (6, list::compare_entry),
    (10, envelope::compare),
    (14, encoding::compare),
    (11, root::compare),
    (11, chain::compare),
    (4, md5::compare),
    (4, key_text::compare),
    (6, worklist::compare),
    (2, worklist::compare_number),
];

/// Makes the case of this number.
pub fn compare(seed: u64, case: u64, comparison: &mut Comparison) -> Compared {
    let mut random = Random::of_case(seed, case);
    comparison.begin(&mut random);
    let mut number = random.within(0..=99);
    for (share, kind) in KINDS {
        if number < share {
            return kind(&mut random, comparison);
        }
        number -= share;
    }
    unreachable!("the shares are a hundred")
}
