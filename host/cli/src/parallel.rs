//! Work on all cores, with the results in order.

use std::collections::BTreeMap;
use std::num::NonZero;
use std::sync::atomic::{AtomicUsize, Ordering};
use std::sync::mpsc::{self, Receiver, SyncSender};
use std::thread;

use crate::status::Failure;

/// Works on each item, on all cores, and takes the results in the order of the items. Where one is
/// not taken, no further item is begun.
pub fn each<T: Sync, R: Send>(
    items: &[T],
    work: impl Fn(&T) -> R + Sync,
    mut take: impl FnMut(&T, R) -> Result<(), Failure>,
) -> Result<(), Failure> {
    let cores = thread::available_parallelism().map_or(1, NonZero::get);
    let next = AtomicUsize::new(0);
    thread::scope(|scope| {
        // A bounded channel, so that results do not pile up.
        let (sender, results) = mpsc::sync_channel(4 * cores);
        for _ in 0..cores.min(items.len()) {
            let (sender, next, work) = (sender.clone(), &next, &work);
            scope.spawn(move || work_on(items, next, work, &sender));
        }
        drop(sender);
        take_in_order(results, |number, result| take(&items[number], result))
    })
}

/// Works on items that nobody works on, until there is none or nobody takes the results.
fn work_on<T, R>(
    items: &[T],
    next: &AtomicUsize,
    work: &impl Fn(&T) -> R,
    sender: &SyncSender<(usize, R)>,
) {
    while let Some((number, item)) = item(items, next) {
        if sender.send((number, work(item))).is_err() {
            break;
        }
    }
}

/// The next item that nobody works on.
fn item<'a, T>(items: &'a [T], next: &AtomicUsize) -> Option<(usize, &'a T)> {
    let number = next.fetch_add(1, Ordering::Relaxed);
    Some((number, items.get(number)?))
}

/// Takes results in the order of their numbers, whatever the order in which they come.
fn take_in_order<R>(
    results: Receiver<(usize, R)>,
    mut take: impl FnMut(usize, R) -> Result<(), Failure>,
) -> Result<(), Failure> {
    let mut early = BTreeMap::new();
    let mut taken = 0;
    for (number, result) in results {
        early.insert(number, result);
        taken = take_from(taken, &mut early, &mut take)?;
    }
    Ok(())
}

/// Takes the results from this number on that are there, and gives the number of the next.
fn take_from<R>(
    mut number: usize,
    early: &mut BTreeMap<usize, R>,
    take: &mut impl FnMut(usize, R) -> Result<(), Failure>,
) -> Result<usize, Failure> {
    while let Some(result) = early.remove(&number) {
        take(number, result)?;
        number += 1;
    }
    Ok(number)
}
