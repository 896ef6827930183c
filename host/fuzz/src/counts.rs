//! How often each export was called, and what was said.

use std::array;
use std::collections::BTreeMap;
use std::fmt;
use std::ptr;

use crate::export::{ABSENT, ALL, ANSWERED, Export, Said};

/// How many numbers stand in a line of the table of refusals.
const NUMBERS_IN_LINE: usize = 4;

/// The counts of all exports.
#[derive(Clone, Debug, PartialEq, Eq)]
pub struct Counts {
    of: [OfExport; ALL.len()],
}

#[derive(Clone, Debug, Default, PartialEq, Eq)]
struct OfExport {
    answered: u64,
    absent: u64,
    /// By number.
    refused: BTreeMap<u32, u64>,
}

impl OfExport {
    fn add(&mut self, other: &Self) {
        self.answered += other.answered;
        self.absent += other.absent;
        for (number, count) in &other.refused {
            *self.refused.entry(*number).or_default() += count;
        }
    }

    fn all_refused(&self) -> u64 {
        self.refused.values().sum()
    }

    fn calls(&self) -> u64 {
        self.answered + self.absent + self.all_refused()
    }
}

impl Counts {
    /// Counts what was said.
    pub fn add(&mut self, export: &'static Export, said: Said) {
        let number = ALL.iter().position(|listed| ptr::eq(*listed, export));
        let counts = &mut self.of[number.expect("every export is listed")];
        match said.result {
            ANSWERED => counts.answered += 1,
            ABSENT => counts.absent += 1,
            _ => *counts.refused.entry(said.words[0] as u32).or_default() += 1,
        }
    }

    /// Adds the counts of another part of the run.
    pub fn add_all(&mut self, other: &Self) {
        for (counts, others) in self.of.iter_mut().zip(&other.of) {
            counts.add(others);
        }
    }

    /// The exports and refusals that small inputs reach and that this run did not; 0 stands for an
    /// answer.
    pub fn not_reached(&self) -> Vec<(&'static str, u32)> {
        let mut missing = Vec::new();
        for (export, counts) in ALL.iter().zip(&self.of) {
            if counts.answered == 0 {
                missing.push((export.name, 0));
            }
            let numbers = export.refusals.iter().cloned().flatten();
            let missed = numbers.filter(|number| !counts.refused.contains_key(number));
            missing.extend(missed.map(|number| (export.name, number)));
        }
        missing
    }

    /// How often each number of refusal was given, by all exports together.
    fn by_number(&self) -> Vec<(u32, u64)> {
        let mut all = OfExport::default();
        for counts in &self.of {
            all.add(counts);
        }
        all.refused.into_iter().collect()
    }

    /// A line for each export.
    fn print_exports(&self, f: &mut fmt::Formatter<'_>) -> fmt::Result {
        writeln!(f, "| Export | calls | answered | absent | refused |")?;
        writeln!(f, "|---|---|---|---|---|")?;
        for (export, counts) in ALL.iter().zip(&self.of) {
            let refused = counts.all_refused();
            let cells = [counts.calls(), counts.answered, counts.absent, refused].map(grouped);
            writeln!(f, "| `{}` | {} |", export.name, cells.join(" | "))?;
        }
        Ok(())
    }

    /// The numbers of refusal, several in a line.
    fn print_refusals(&self, f: &mut fmt::Formatter<'_>) -> fmt::Result {
        writeln!(f, "|{}", " No. | calls |".repeat(NUMBERS_IN_LINE))?;
        writeln!(f, "|{}", "---|---|".repeat(NUMBERS_IN_LINE))?;
        for line in self.by_number().chunks(NUMBERS_IN_LINE) {
            let cell = |&(number, count)| format!(" {number} | {} |", grouped(count));
            let cells: String = line.iter().map(cell).collect();
            let empty = "  |  |".repeat(NUMBERS_IN_LINE - line.len());
            writeln!(f, "|{cells}{empty}")?;
        }
        Ok(())
    }
}

impl Default for Counts {
    fn default() -> Self {
        Self {
            of: array::from_fn(|_| OfExport::default()),
        }
    }
}

/// Two tables in Markdown: the exports, and the numbers of refusal.
impl fmt::Display for Counts {
    fn fmt(&self, f: &mut fmt::Formatter<'_>) -> fmt::Result {
        self.print_exports(f)?;
        writeln!(f)?;
        self.print_refusals(f)
    }
}

/// A number with a comma after each three digits from the right.
pub fn grouped(number: u64) -> String {
    let digits = number.to_string();
    let mut text = String::new();
    for (place, digit) in digits.chars().enumerate() {
        if place > 0 && (digits.len() - place).is_multiple_of(3) {
            text.push(',');
        }
        text.push(digit);
    }
    text
}
