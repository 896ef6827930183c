//! `dwarnizza index check`: the full check of archive indexes.

use std::ffi::{OsStr, OsString};

use dwarnizza::index::Summary;

use super::archives::{ARCHIVES, Archives, CDN_CONFIG, Judged};
use super::names::{NAMES, Named};
use super::{IndexFile, summary_fields};
use crate::command::{Arguments, Choice, Command};
use crate::files;
use crate::name::{hex, shown};
use crate::output::{Field, Output};
use crate::parallel;
use crate::status::{Failure, Status};

const FOLDERS: Choice = Choice {
    name: "-r",
    value: None,
    summary: "take folders too: the files in and below them whose names end in .index",
};

pub const COMMAND: Command = Command {
    name: "index check",
    operands: "FILE...",
    summary: "check archive indexes whole, on all cores, and say what each holds",
    options: &[FOLDERS, files::FILES_FROM, NAMES, ARCHIVES, CDN_CONFIG],
    help: "\
Lines, in the order of the files:
  ok FILE VERSION W K ENTRIES PAGES
  refused FILE NUMBER PLACE
  failed FILE
      it could not be read
With --archives DIR, after the line of its file:
  inside FILE ENTRIES
      every entry lies inside its archive, DIR/NAME or DIR/NA/ME/NAME; NAME is that of the index
      without its extension, and with offset width 6 that of the entry's archive in the CDN config
  outside FILE KEY SIZE OFFSET LENGTH ARCHIVE
      the entry ends after the LENGTH bytes of the archive
  unjudged FILE ARCHIVE
      the archive could not be read; ARCHIVE is a number where the CDN config has no such archive,
      and - where the offset width is 6 and there is no --cdn-config
With --names, at the end:
  misnamed FILE NAME HOLDER
      by its footer it is NAME.index; HOLDER is the file that has that name here, - where none has
Of several files a count is said at the end, on standard error; with --json it is the answer
`summary`.",
    run,
};

/// What the check of a file gives.
struct Checked {
    result: Result<Summary, Failure>,
    /// The MD5 of its footer, where it has one.
    footer: Option<String>,
    /// Whether its entries lie inside their archive, where that is asked.
    judged: Option<Judged>,
}

#[derive(Default)]
struct Counts {
    ok: usize,
    refused: usize,
    failed: usize,
    misnamed: usize,
    outside: usize,
}

fn run(arguments: &Arguments, output: &mut Output) -> Result<(), Failure> {
    let names = names(arguments)?;
    let archives = Archives::from_arguments(arguments)?;
    let mut counts = Counts::default();
    let mut named = Vec::new();
    let mut done = 0;
    parallel::each(
        &names,
        |name| check(name, archives.as_ref()),
        |name, checked| {
            done += 1;
            say(name, &checked, &mut counts, output)?;
            output.progress(done, names.len());
            if let Some(footer) = checked.footer {
                named.push(Named::new(name, footer));
            }
            Ok(())
        },
    )?;
    if arguments.has(NAMES.name) {
        counts.misnamed = super::names::compare(&named, output)?;
    }
    say_counts(names.len(), &counts, output)
}

/// The files that are asked for.
fn names(arguments: &Arguments) -> Result<Vec<OsString>, Failure> {
    let mut names = arguments.operands.clone();
    if let Some(file) = arguments.value(files::FILES_FROM.name) {
        names.extend(files::names_from(file)?);
    } else if names.is_empty() {
        return Err(Failure::usage("a file is missing"));
    }
    if arguments.has(FOLDERS.name) {
        return match files::indexes(&names) {
            indexes if indexes.is_empty() => Err(files::no_index()),
            indexes => Ok(indexes),
        };
    }
    names.iter().try_for_each(|name| files::no_folder(name))?;
    Ok(names)
}

fn check(name: &OsStr, archives: Option<&Archives>) -> Checked {
    let file = match IndexFile::read(name) {
        Ok(file) => file,
        Err(failure) => {
            return Checked {
                result: Err(failure),
                footer: None,
                judged: None,
            };
        }
    };
    let result = file.check();
    let judged = match (&result, archives) {
        (Ok(index), Some(archives)) => Some(archives.judge(name, *index)),
        _ => None,
    };
    let footer = file.unchecked().name().ok();
    Checked {
        result: result.map(|index| index.summary()),
        footer: footer.map(|footer| hex(&footer)),
        judged,
    }
}

fn say(
    name: &OsStr,
    checked: &Checked,
    counts: &mut Counts,
    output: &mut Output,
) -> Result<(), Failure> {
    match &checked.result {
        Ok(summary) => {
            counts.ok += 1;
            let mut fields: Vec<Field> = vec![("file", shown(name).into())];
            fields.extend(summary_fields(*summary));
            output.answer("ok", &fields)?;
        }
        Err(failure) => {
            match failure.status {
                Status::Refused => counts.refused += 1,
                _ => counts.failed += 1,
            }
            output.failed_file(name, failure)?;
        }
    }
    if let Some(judged) = &checked.judged {
        counts.outside += judged.say(name, output)?;
    }
    Ok(())
}

fn say_counts(files: usize, counts: &Counts, output: &mut Output) -> Result<(), Failure> {
    let Counts {
        ok,
        refused,
        failed,
        misnamed,
        outside,
    } = *counts;
    if output.json {
        return output.answer(
            "summary",
            &[
                ("files", files.into()),
                ("ok", ok.into()),
                ("refused", refused.into()),
                ("failed", failed.into()),
                ("misnamed", misnamed.into()),
                ("outside", outside.into()),
            ],
        );
    }
    if files != 1 {
        let mut words = format!("{files} indexes: {ok} ok, {refused} refused, {failed} not read");
        if misnamed > 0 {
            words += &format!("; {misnamed} misnamed");
        }
        if outside > 0 {
            words += &format!("; {outside} entries outside their archive");
        }
        output.say(&words);
    }
    Ok(())
}
