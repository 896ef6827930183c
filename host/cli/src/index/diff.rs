//! `dwarnizza index diff`: what differs between two archive indexes.

use std::cmp::Ordering;

use dwarnizza::CheckedIndex;
use dwarnizza::index::IndexEntry;

use super::{IndexFile, archive, entry_fields};
use crate::command::{Arguments, Command};
use crate::name::{hex, shown};
use crate::output::{Field, Output};
use crate::status::{Failure, Status};

pub const COMMAND: Command = Command {
    name: "index diff",
    operands: "OLD NEW",
    summary: "check two archive indexes whole, and say which entries differ",
    options: &[],
    help: "\
Lines, in the order of the keys:
  removed KEY SIZE ARCHIVE OFFSET
  added KEY SIZE ARCHIVE OFFSET
  changed KEY SIZE ARCHIVE OFFSET SIZE ARCHIVE OFFSET
      as the old and as the new index have it
  refused FILE NUMBER PLACE
      the index is refused; NUMBER and PLACE are - where the two have keys of other lengths
  failed FILE
The exit status is 1 where an entry differs. A count is said at the end, on standard error; with
--json it is the answer `summary`.",
    run,
};

fn run(arguments: &Arguments, output: &mut Output) -> Result<(), Failure> {
    let [old, new] = &arguments.operands[..] else {
        return Err(Failure::usage("two indexes are wanted"));
    };
    let files = (IndexFile::read(old)?, IndexFile::read(new)?);
    let indexes = (files.0.check()?, files.1.check()?);
    let lengths = (
        indexes.0.settings().key_length,
        indexes.1.settings().key_length,
    );
    if lengths.0 != lengths.1 {
        let words = format!(
            "{} has keys of {} bytes and {} of {}: their entries cannot be compared",
            shown(old),
            lengths.0,
            shown(new),
            lengths.1
        );
        return Err(Failure::unfit(words).of_file(new));
    }
    let counts = compare(indexes.0, indexes.1, output)?;
    say_counts(counts, output)
}

/// Says how many differ: words, or the answer `summary`.
fn say_counts([removed, added, changed]: [usize; 3], output: &mut Output) -> Result<(), Failure> {
    if output.json {
        return output.answer(
            "summary",
            &[
                ("removed", removed.into()),
                ("added", added.into()),
                ("changed", changed.into()),
            ],
        );
    }
    output.say(&format!(
        "{removed} removed, {added} added, {changed} changed"
    ));
    Ok(())
}

/// Says each difference, and counts them.
fn compare(
    old: CheckedIndex<'_>,
    new: CheckedIndex<'_>,
    output: &mut Output,
) -> Result<[usize; 3], Failure> {
    let (mut olds, mut news) = (old.entries().peekable(), new.entries().peekable());
    let mut counts = [0; 3];
    while let Some(order) = order(olds.peek(), news.peek()) {
        let left = if order.is_gt() { None } else { olds.next() };
        let right = if order.is_lt() { None } else { news.next() };
        let (kind, word, fields) = match (left, right) {
            (Some(entry), None) => (0, "removed", entry_fields(old.settings(), &entry).into()),
            (None, Some(entry)) => (1, "added", entry_fields(new.settings(), &entry).into()),
            (Some(left), Some(right)) if place(&left) != place(&right) => {
                (2, "changed", both((old, left), (new, right)))
            }
            _ => continue,
        };
        counts[kind] += 1;
        output.note(Status::Absent);
        let fields: Vec<Field> = fields;
        output.answer(word, &fields)?;
    }
    Ok(counts)
}

/// Which of two entries comes first; none where there is none.
fn order(old: Option<&IndexEntry<'_>>, new: Option<&IndexEntry<'_>>) -> Option<Ordering> {
    match (old, new) {
        (None, None) => None,
        (Some(_), None) => Some(Ordering::Less),
        (None, Some(_)) => Some(Ordering::Greater),
        (Some(old), Some(new)) => Some(old.key.cmp(new.key)),
    }
}

fn place(entry: &IndexEntry<'_>) -> (u32, u32, u64) {
    (entry.size, entry.archive, entry.offset)
}

/// An index and an entry of it.
type Of<'a> = (CheckedIndex<'a>, IndexEntry<'a>);

fn both((old, left): Of<'_>, (new, right): Of<'_>) -> Vec<Field> {
    vec![
        ("key", hex(left.key).into()),
        ("old_size", left.size.into()),
        ("old_archive", archive(old.settings(), left.archive)),
        ("old_offset", left.offset.into()),
        ("size", right.size.into()),
        ("archive", archive(new.settings(), right.archive)),
        ("offset", right.offset.into()),
    ]
}
