//! A run of many cases on several threads. What it counts and finds does not depend on how many
//! they are.

use std::any::Any;
use std::fmt;
use std::ops::Range;
use std::panic::{self, AssertUnwindSafe};
use std::sync::atomic::{AtomicU64, Ordering};
use std::thread;

use crate::case;
use crate::compare::{Comparison, Difference};
use crate::counts::Counts;

/// How many cases a thread takes at once.
const TAKEN: u64 = 256;

/// A case that failed.
#[derive(Debug)]
pub struct Failed {
    /// Its number.
    pub case: u64,
    /// How.
    pub failure: Failure,
}

/// How a case failed.
#[derive(Debug)]
pub enum Failure {
    /// The programs differ.
    Difference(Box<Difference>),
    /// The second program, or the fuzzer, panicked.
    Panic(String),
}

impl fmt::Display for Failure {
    fn fmt(&self, f: &mut fmt::Formatter<'_>) -> fmt::Result {
        match self {
            Self::Difference(difference) => difference.fmt(f),
            Self::Panic(message) => write!(f, "panicked: {message}"),
        }
    }
}

/// Makes one case.
pub fn one(seed: u64, case: u64, comparison: &mut Comparison) -> Result<(), Failed> {
    let made = AssertUnwindSafe(|| case::compare(seed, case, comparison));
    let failure = match panic::catch_unwind(made) {
        Ok(Ok(())) => return Ok(()),
        Ok(Err(difference)) => Failure::Difference(difference),
        Err(payload) => Failure::Panic(message(&*payload)),
    };
    Err(Failed { case, failure })
}

fn message(payload: &(dyn Any + Send)) -> String {
    let text = payload.downcast_ref::<String>().map(String::as_str);
    let text = text.or_else(|| payload.downcast_ref::<&str>().copied());
    text.unwrap_or("without a message").to_string()
}

/// The cases that are shared out.
struct Cases<'a> {
    seed: u64,
    count: u64,
    /// The first that no thread has taken.
    next: AtomicU64,
    /// The lowest that failed. Those below it are still made, so that the same one is told each
    /// time.
    failed: AtomicU64,
    progress: &'a (dyn Fn(u64) + Sync),
}

/// Makes all cases from 0 on, and tells before some how many were taken. Gives the counts, or the
/// lowest case that failed.
pub fn all(
    seed: u64,
    count: u64,
    threads: usize,
    progress: &(dyn Fn(u64) + Sync),
) -> Result<Counts, Failed> {
    let cases = Cases {
        seed,
        count,
        next: AtomicU64::new(0),
        failed: AtomicU64::new(u64::MAX),
        progress,
    };
    let results: Vec<_> = thread::scope(|scope| {
        let workers: Vec<_> = (0..threads).map(|_| scope.spawn(|| cases.work())).collect();
        let ended = workers.into_iter().map(|worker| worker.join());
        ended
            .map(|result| result.expect("cases catch panics"))
            .collect()
    });
    let mut counts = Counts::default();
    let mut failed = Vec::new();
    for result in results {
        match result {
            Ok(some) => counts.add_all(&some),
            Err(failure) => failed.push(failure),
        }
    }
    match failed.into_iter().min_by_key(|failed| failed.case) {
        None => Ok(counts),
        Some(failed) => Err(failed),
    }
}

impl Cases<'_> {
    /// The work of one thread.
    fn work(&self) -> Result<Counts, Failed> {
        let mut comparison = Comparison::default();
        while let Some(taken) = self.take() {
            (self.progress)(taken.start);
            self.make(taken, &mut comparison)?;
        }
        Ok(comparison.counts)
    }

    /// The next cases; none where all are taken or one before them failed.
    fn take(&self) -> Option<Range<u64>> {
        let first = self.next.fetch_add(TAKEN, Ordering::Relaxed);
        let wanted = first < self.count && first <= self.failed.load(Ordering::Relaxed);
        wanted.then(|| first..self.count.min(first + TAKEN))
    }

    fn make(&self, mut cases: Range<u64>, comparison: &mut Comparison) -> Result<(), Failed> {
        let made = cases.try_for_each(|case| one(self.seed, case, comparison));
        if let Err(failed) = &made {
            self.failed.fetch_min(failed.case, Ordering::Relaxed);
        }
        made
    }
}
