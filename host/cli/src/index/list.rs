//! `dwarnizza index list`: the entries of an archive index as text.

use std::ffi::OsStr;

use dwarnizza::CheckedIndex;
use dwarnizza::index::Page;

use super::{IndexFile, entry_fields, summary_fields};
use crate::command::{Arguments, Choice, Command};
use crate::output::{Output, text_of};
use crate::parallel;
use crate::replace::{FORCE, NewFile, OUT, write_file};
use crate::status::Failure;

/// The option for the entries' bytes in place of text.
pub const RAW: Choice = Choice {
    name: "--raw",
    value: None,
    summary: "entries as their bytes, with nothing between",
};

/// The entries of how many pages are made text at once.
const AT_ONCE: usize = 24;

pub const COMMAND: Command = Command {
    name: "index list",
    operands: "FILE",
    summary: "check an archive index whole, and list its entries as text",
    options: &[OUT, FORCE, RAW],
    help: "\
The first line has the settings and the entry count, each other one an entry, with tabs between:
  index version=VERSION offset=W key=K entries=COUNT
  KEY SIZE ARCHIVE OFFSET
ARCHIVE is - but with offset width 6. `index write` makes an index of this text. With --json the
lines are answers `index` and `entry`.
An index that is refused or cannot be read has one line, unless bytes go to standard output:
  refused FILE NUMBER PLACE
  failed FILE",
    run,
};

fn run(arguments: &Arguments, output: &mut Output) -> Result<(), Failure> {
    let out = arguments.value(OUT.name);
    let raw = arguments.has(RAW.name);
    output.content = raw && out.is_none();
    let file = IndexFile::read(arguments.one_operand("a file")?)?;
    let index = file.check()?;
    let force = arguments.has(FORCE.name);
    match (out, raw) {
        (Some(out), true) => write_file(out, &index.list(), force),
        (None, true) => output.bytes(&index.list()),
        (Some(out), false) => to_file(index, out, force),
        (None, false) => to_output(index, output),
    }
}

fn to_file(index: CheckedIndex<'_>, out: &OsStr, force: bool) -> Result<(), Failure> {
    let mut file = NewFile::create(out, force)?;
    lines(index, |line| file.write(line.as_bytes()))?;
    file.finish()
}

fn to_output(index: CheckedIndex<'_>, output: &mut Output) -> Result<(), Failure> {
    if !output.json {
        return lines(index, |line| output.bytes(line.as_bytes()));
    }
    output.answer("index", &summary_fields(index.summary()))?;
    let settings = index.settings();
    let mut entries = index.entries();
    entries.try_for_each(|entry| output.answer("entry", &entry_fields(settings, &entry)))
}

/// The lines of the list, several at a time.
fn lines(
    index: CheckedIndex<'_>,
    mut put: impl FnMut(&str) -> Result<(), Failure>,
) -> Result<(), Failure> {
    let settings = index.settings();
    let summary = index.summary();
    put(&format!(
        "index\tversion={}\toffset={}\tkey={}\tentries={}\n",
        settings.version, settings.offset_width, settings.key_length, summary.entries
    ))?;
    let pages: Vec<Page> = summary.page_numbers().collect();
    let parts: Vec<&[Page]> = pages.chunks(AT_ONCE).collect();
    parallel::each(&parts, |pages| text(index, pages), |_, text| put(&text))
}

/// The lines of the entries of these pages.
fn text(index: CheckedIndex<'_>, pages: &[Page]) -> String {
    let settings = index.settings();
    let line = |entry| text_of(&entry_fields(settings, &entry)) + "\n";
    let entries = pages.iter().flat_map(|&page| index.entries_on(page));
    entries.map(line).collect()
}
