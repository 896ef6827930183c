//! The two programs beside each other.

#![allow(dead_code)] // Each test uses a part of it.

use std::collections::BTreeMap;
use std::fmt::{self, Debug};

use dwarnizza::index::{Entry, Page, Settings, Slot};
use dwarnizza::{Reason, Refusal};

/// A refusal outside a chain.
pub fn refusal_at(reason: Reason, place: usize) -> Refusal {
    Refusal::new(reason, place as u64)
}

/// The reason with a number of the second program.
pub fn reason(number: u32) -> Reason {
    Reason::from_number(number).expect("the library has this number")
}

/// A refusal of the second program as the library has it.
pub fn in_library_terms(refusal: second::refusal::Refusal) -> Refusal {
    refusal_at(reason(refusal.number), refusal.place as usize)
}

/// Settings of the second program as the library has them.
pub fn in_library_settings(settings: second::index::Settings) -> Settings {
    let second::index::Settings {
        version,
        offset_width,
        key_length,
    } = settings;
    let byte = |number: u32| u8::try_from(number).expect("tests give settings of 8 bits");
    Settings {
        version: byte(version),
        offset_width: byte(offset_width),
        key_length: byte(key_length),
    }
}

/// An entry that the second program found, as the library has it.
pub fn in_library_entry(found: second::index::Found, compared: u32) -> Entry {
    Entry {
        page: Page(found.page as u32),
        slot: Slot(found.slot as u32),
        size: found.size,
        location: found.location,
        compared,
    }
}

/// What an output holds before a call.
fn unwritten(room: usize) -> Vec<u8> {
    (0..room).map(|i| (i * 7 + 3) as u8).collect()
}

/// What the library writes into an output of this size, after seeing that both programs give the
/// same answer and leave the same bytes. An answer is how many bytes were written.
#[track_caller]
pub fn compare_outputs<E: Debug + PartialEq>(
    room: usize,
    library: impl FnOnce(&mut [u8]) -> Result<usize, E>,
    second: impl FnOnce(&mut [u8]) -> Result<usize, E>,
) -> Result<Vec<u8>, E> {
    let before = unwritten(room);
    let (mut by_library, mut by_second) = (before.clone(), before.clone());
    let expected = second(&mut by_second);
    assert_eq!(library(&mut by_library), expected);
    let written = *expected.as_ref().unwrap_or(&0);
    assert!(
        by_library[..written] == by_second[..written],
        "the outputs differ"
    );
    assert!(
        by_library[written..] == before[written..] && by_second[written..] == before[written..],
        "a byte past the answer was written"
    );
    by_library.truncate(written);
    expected.map(|_| by_library)
}

/// How often each answer was given.
pub struct Tally {
    /// What is counted.
    cases: &'static str,
    pub count: u64,
    passed: u64,
    refused: BTreeMap<u32, u64>,
}

impl Tally {
    pub fn new(cases: &'static str) -> Self {
        Self {
            cases,
            count: 0,
            passed: 0,
            refused: BTreeMap::new(),
        }
    }

    pub fn add<T>(&mut self, answer: &Result<T, Refusal>) {
        self.count += 1;
        match answer {
            Ok(_) => self.passed += 1,
            Err(refusal) => self.add_refusal(refusal.reason),
        }
    }

    /// A further refusal of the same case.
    pub fn add_refusal(&mut self, reason: Reason) {
        *self.refused.entry(reason.number()).or_default() += 1;
    }

    /// Prints the counts, after seeing that some passed and each of these numbers was met.
    #[track_caller]
    pub fn print(&self, numbers: impl IntoIterator<Item = u32>) {
        println!("{self}");
        assert!(self.passed > 0, "none passed");
        for number in numbers {
            let met = self.refused.contains_key(&number);
            assert!(met, "none was refused with {number}");
        }
    }
}

impl fmt::Display for Tally {
    fn fmt(&self, f: &mut fmt::Formatter<'_>) -> fmt::Result {
        write!(f, "{} {}: {} passed", self.count, self.cases, self.passed)?;
        for (number, count) in &self.refused {
            write!(f, ", {count} refused {number}")?;
        }
        Ok(())
    }
}
