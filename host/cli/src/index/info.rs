//! `dwarnizza index info`: what an archive index says of itself.

use std::ffi::OsStr;

use dwarnizza::index::{IndexEntry, Page, Slot, Summary};
use dwarnizza::{Refusal, UncheckedIndex};

use super::{IndexFile, summary_fields};
use crate::command::{Arguments, Command};
use crate::name::{hex, shown};
use crate::output::{Field, Output};
use crate::status::Failure;

pub const COMMAND: Command = Command {
    name: "index info",
    operands: "FILE...",
    summary: "say what each archive index says of itself; its pages are not checked",
    options: &[],
    help: "\
Lines:
  info FILE VERSION W K ENTRIES PAGES LENGTH NAME FIRST LAST COMPARISONS
      NAME is the MD5 of its footer, which names the archive; FIRST and LAST are its first and last
      key, - where it has no entries; COMPARISONS are the most that a lookup makes
  refused FILE NUMBER PLACE
  failed FILE",
    run,
};

fn run(arguments: &Arguments, output: &mut Output) -> Result<(), Failure> {
    for name in arguments.some_operands("a file")? {
        match info(name) {
            Ok(fields) => output.answer("info", &fields)?,
            Err(failure) => output.failed_file(name, &failure)?,
        }
    }
    Ok(())
}

fn info(name: &OsStr) -> Result<Vec<Field>, Failure> {
    let file = IndexFile::read(name)?;
    let mut fields = vec![("file", shown(name).into())];
    let told = unchecked_fields(file.unchecked()).map_err(|refusal| file.refused(refusal))?;
    fields.extend(told);
    Ok(fields)
}

fn unchecked_fields(index: UncheckedIndex<'_>) -> Result<Vec<Field>, Refusal> {
    let summary = index.summary()?;
    let key = |entry: Option<IndexEntry<'_>>| entry.map(|entry| hex(entry.key)).into();
    let mut fields = Vec::from(summary_fields(summary));
    fields.extend([
        ("length", index.bytes().len().into()),
        ("name", hex(&index.name()?).into()),
        ("first", key(index.entry_at(Page(0), Slot(0))?)),
        ("last", key(last_entry(index, summary)?)),
        ("comparisons", index.bound()?.into()),
    ]);
    Ok(fields)
}

/// The entry in the last slot of the last page.
fn last_entry<'a>(
    index: UncheckedIndex<'a>,
    summary: Summary,
) -> Result<Option<IndexEntry<'a>>, Refusal> {
    let Some(page) = summary.page_numbers().next_back() else {
        return Ok(None);
    };
    let parts = index.page(page)?;
    match parts.and_then(|parts| parts.slots().next_back()) {
        Some(slot) => index.entry_at(page, slot),
        None => Ok(None),
    }
}
