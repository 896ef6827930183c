//! Many things that are sought: operands, then the rows of a worklist. Every one is answered once,
//! in their order, as soon as its answer and those before it are known.

use std::borrow::Cow;
use std::collections::HashSet;
use std::ffi::OsString;

use crate::name::{shown_bytes, shown_path};
use crate::output::{Field, Output};
use crate::status::{Failure, Status};
use crate::worklist::{self, Cell, List};

/// What a command calls what it seeks.
#[derive(Clone, Copy)]
pub struct Names {
    /// In words.
    pub what: &'static str,
    /// The field of an answer.
    pub field: &'static str,
    /// The field of an answer that is refused.
    pub refused: &'static str,
    pub texts: Texts,
}

/// How the texts are told, and which of them are the same.
#[derive(Clone, Copy)]
pub enum Texts {
    /// File numbers and keys: told in lower case, and the same in either case.
    Plain,
    /// Paths: told as they are given, and the same with either slash and in either case.
    Paths,
}

impl Texts {
    fn told(self, text: &[u8]) -> String {
        match self {
            Self::Plain => shown_bytes(&lower_case(text)),
            Self::Paths => shown_path(text),
        }
    }

    /// How a text is told that is refused: as it is given.
    fn told_refused(self, text: &[u8]) -> String {
        match self {
            Self::Plain => shown_bytes(text),
            Self::Paths => shown_path(text),
        }
    }

    /// What texts that are the same have in common.
    fn same(self, text: &[u8]) -> Cow<'_, [u8]> {
        let text = lower_case(text);
        match self {
            Self::Paths if text.contains(&b'/') => Cow::Owned(with_backslashes(&text)),
            _ => text,
        }
    }
}

/// Something that is sought.
pub struct Sought<'a> {
    cell: Cell<'a>,
    /// The row of the worklist.
    pub row: Option<usize>,
}

impl Sought<'_> {
    /// The text, but of a row that has none.
    pub fn text(&self) -> Option<&[u8]> {
        match &self.cell {
            Cell::Text(text) => Some(text),
            Cell::Fault(..) => None,
        }
    }
}

/// All that is sought.
pub struct Batch<'a> {
    names: Names,
    list: Option<List<'a>>,
    pub sought: Vec<Sought<'a>>,
}

/// What is answered of something sought, with the fields behind its text.
pub enum Answer {
    Found(Vec<Field>),
    /// With what its text looks like, where it looks odd.
    Absent(Vec<Field>, Option<&'static str>),
    /// Nobody has it, but something could not be searched.
    Unknown(Vec<Field>),
    Refused(Failure),
}

impl<'a> Batch<'a> {
    /// These operands, then the rows of the worklist. Something must be sought.
    pub fn new(
        names: Names,
        operands: &'a [OsString],
        file: Option<&'a worklist::File>,
    ) -> Result<Self, Failure> {
        if operands.is_empty() && file.is_none() {
            return Err(Failure::usage(format!("{} is missing", names.what)));
        }
        let list = file.map(|file| file.list(names.texts)).transpose()?;
        let operands = operands.iter().map(|text| Sought {
            cell: Cell::Text(Cow::Borrowed(text.as_encoded_bytes())),
            row: None,
        });
        let rows = list.iter().flat_map(List::cells);
        let rows = rows.map(|(row, cell)| Sought {
            cell,
            row: Some(row),
        });
        let sought = operands.chain(rows).collect();
        Ok(Self {
            names,
            list,
            sought,
        })
    }

    /// The answer of a row that has no text.
    fn fault(&self, sought: &Sought<'_>) -> Option<Failure> {
        match (&sought.cell, sought.row, &self.list) {
            (Cell::Fault(why, _), Some(row), Some(list)) => {
                Some(Failure::unfit(list.words(row, why, None)))
            }
            _ => None,
        }
    }

    /// Words about something sought, with the row that it stands in.
    fn words(&self, sought: &Sought<'_>, words: String) -> String {
        match (sought.row, &self.list) {
            (Some(row), Some(list)) => list.words(row, &words, sought.text()),
            _ => words,
        }
    }
}

/// Tells the answers of a batch.
pub struct Teller<'a> {
    batch: &'a Batch<'a>,
    /// How many are told.
    told: usize,
    tally: Tally,
    /// The texts of rows so far, by what the same ones have in common.
    seen: HashSet<Cow<'a, [u8]>>,
}

impl<'a> Teller<'a> {
    pub fn new(batch: &'a Batch<'a>) -> Self {
        Self {
            batch,
            told: 0,
            tally: Tally::default(),
            seen: HashSet::new(),
        }
    }

    /// Tells the answers from the next on up to the first that is not known. What is told is
    /// written at once, so that a run that is ended has said it.
    pub fn tell(
        &mut self,
        output: &mut Output,
        answer: impl Fn(usize, &[u8]) -> Option<Answer>,
    ) -> Result<(), Failure> {
        let before = self.told;
        while let Some(sought) = self.batch.sought.get(self.told) {
            let known = match sought.text() {
                Some(text) => answer(self.told, text),
                None => self.batch.fault(sought).map(Answer::Refused),
            };
            let Some(answer) = known else { break };
            self.told += 1;
            self.say(sought, answer, output)?;
        }
        if self.told > before {
            output.flush()
        } else {
            Ok(())
        }
    }

    /// Says one answer, and counts it.
    fn say(
        &mut self,
        sought: &'a Sought<'a>,
        answer: Answer,
        output: &mut Output,
    ) -> Result<(), Failure> {
        let Names { field, texts, .. } = self.batch.names;
        if sought.row.is_some() {
            self.tally.count(&answer);
            let text = sought.text().map(|text| texts.same(text));
            let again = text.is_some_and(|text| !self.seen.insert(text));
            self.tally.duplicate += usize::from(again);
        }
        let (word, status, more, look) = match answer {
            Answer::Found(fields) => ("found", Status::Answered, fields, None),
            Answer::Absent(fields, look) => ("absent", Status::Absent, fields, look),
            Answer::Unknown(fields) => ("unknown", Status::Refused, fields, None),
            Answer::Refused(failure) => return self.refuse(sought, failure, output),
        };
        let text = texts.told(sought.text().unwrap_or_default());
        let odd = look.map(|look| format!("\"{text}\" is absent; {look}"));
        let mut fields = vec![(field, text.into())];
        fields.extend(more);
        fields.push(("row", sought.row.into()));
        output.note(status);
        output.answer(word, &fields)?;
        if let Some(words) = odd {
            output.say(&self.batch.words(sought, words));
        }
        Ok(())
    }

    fn refuse(
        &self,
        sought: &Sought<'_>,
        failure: Failure,
        output: &mut Output,
    ) -> Result<(), Failure> {
        let (text, failure) = match &sought.cell {
            Cell::Text(text) => {
                let words = self.batch.words(sought, failure.words);
                (&text[..], Failure { words, ..failure })
            }
            Cell::Fault(_, row) => (*row, failure),
        };
        let text = self.batch.names.texts.told_refused(text);
        let fields = vec![
            (self.batch.names.refused, text.into()),
            ("row", sought.row.into()),
        ];
        output.failed(fields, &failure)
    }

    /// Says the counts of the rows: words, or the answer `summary`. All answers must be told.
    pub fn end(self, output: &mut Output) -> Result<(), Failure> {
        assert_eq!(self.told, self.batch.sought.len(), "all are answered");
        let Some(list) = &self.batch.list else {
            return Ok(());
        };
        if self.tally.absent > 0
            && let Some(hint) = list.hint()
        {
            output.say(&hint);
        }
        self.tally.say(list, output)
    }
}

/// A text with its ASCII letters in lower case.
fn lower_case(text: &[u8]) -> Cow<'_, [u8]> {
    match text.iter().any(u8::is_ascii_uppercase) {
        true => Cow::Owned(text.to_ascii_lowercase()),
        false => Cow::Borrowed(text),
    }
}

/// A path with backslashes alone.
fn with_backslashes(path: &[u8]) -> Vec<u8> {
    let turned = |byte: &u8| if *byte == b'/' { b'\\' } else { *byte };
    path.iter().map(turned).collect()
}

/// How many rows had which answer. A duplicate is one of the others as well: a row whose text, or
/// one that is the same, stood in a row before it.
#[derive(Default)]
struct Tally {
    found: usize,
    absent: usize,
    unknown: usize,
    refused: usize,
    duplicate: usize,
}

impl Tally {
    fn count(&mut self, answer: &Answer) {
        *match answer {
            Answer::Found(_) => &mut self.found,
            Answer::Absent(..) => &mut self.absent,
            Answer::Unknown(_) => &mut self.unknown,
            Answer::Refused(_) => &mut self.refused,
        } += 1;
    }

    fn say(&self, list: &List<'_>, output: &mut Output) -> Result<(), Failure> {
        let Self {
            found,
            absent,
            unknown,
            refused,
            duplicate,
        } = *self;
        let (rows, header) = (list.rows(), list.header());
        let answered = found + absent + unknown + refused + usize::from(header.is_some());
        assert_eq!(rows, answered, "every row comes back once");
        if output.json {
            let fields = [
                ("rows", rows.into()),
                ("header_row", header.map(|_| 1_usize).into()),
                ("header", header.into()),
                ("found", found.into()),
                ("absent", absent.into()),
                ("unknown", unknown.into()),
                ("refused", refused.into()),
                ("duplicate", duplicate.into()),
            ];
            return output.answer("summary", &fields);
        }
        let header = match header {
            Some(header) => format!("row 1 is the header ({header})"),
            None => "no header".to_string(),
        };
        let plural = if rows == 1 { "" } else { "s" };
        output.say(&format!(
            "{rows} row{plural}, {header}: {found} found, {absent} absent, {unknown} unknown, \
             {refused} refused; {duplicate} duplicate"
        ));
        Ok(())
    }
}
