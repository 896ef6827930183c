//! Files in a root file, by their numbers or by their paths.

use std::collections::HashMap;

use dwarnizza::CheckedRoot;
use dwarnizza::root::PathRecord;

use crate::batch::{Batch, Names, Texts};
use crate::command::{Arguments, Choice};
use crate::file_number::file_number;
use crate::looks::path_looks;
use crate::masks::Masks;
use crate::name::hex;
use crate::output::{Field, Output};
use crate::parallel;
use crate::path;
use crate::status::Failure;

/// The option that says that paths are sought.
pub const PATH: Choice = Choice {
    name: "--path",
    value: None,
    summary: "what is sought are paths, such as Interface\\Icons\\INV_Misc_QuestionMark.blp, and not\n      \
              file numbers",
};

/// What `--help` says of paths.
macro_rules! path_help {
    () => {
        "\
With --path what is sought is taken as it is given: nothing is trimmed, and it has up to 1,024 bytes.
It is sought by its name hash, for which / and \\ are the same, and so are a to z and A to Z. Blocks of
a root file may have no name hashes: their files are found by number only. Each path takes a pass over
the root file. Row 1 of a worklist of paths is a header only with --header or --column-name, or if it
has in the column a word such as path, file or name and nothing else."
    };
}
pub(crate) use path_help;

/// What files are sought by.
#[derive(Clone, Copy)]
pub enum By {
    Number,
    Path,
}

impl By {
    pub fn of(arguments: &Arguments) -> Self {
        match arguments.has(PATH.name) {
            true => Self::Path,
            false => Self::Number,
        }
    }

    pub fn names(self) -> Names {
        match self {
            Self::Number => Names {
                what: "a file number",
                field: "file_number",
                refused: "file_number",
                texts: Texts::Plain,
            },
            Self::Path => Names {
                what: "a path",
                field: "path",
                refused: "path",
                texts: Texts::Paths,
            },
        }
    }

    /// What a text that a root file does not have looks like, where it looks odd.
    pub fn look(self, text: &[u8]) -> Option<&'static str> {
        match self {
            Self::Number => None,
            Self::Path => path_looks(text),
        }
    }
}

/// What a root file has of a file.
#[derive(Clone, Copy)]
pub struct Record {
    pub id: u32,
    pub key: [u8; 16],
    /// Where the key stands; none where the file was sought among many.
    pub place: Option<usize>,
}

impl Record {
    /// The fields behind that which the file was sought by.
    pub fn fields(&self, by: By) -> Vec<Field> {
        let key = ("content_key", hex(&self.key).into());
        match by {
            By::Number => vec![key],
            By::Path => vec![("file_number", self.id.into()), key],
        }
    }
}

/// The record of what is sought, none where it is absent, or why it is refused, which is boxed: the
/// rows of a list are many.
pub type Looked = Result<Option<Record>, Box<Failure>>;

/// What a root file has of all that is sought, as far as it was searched.
pub struct Searched {
    /// Of each that is sought the number of its answer.
    which: Vec<Option<usize>>,
    answers: Vec<Looked>,
}

impl Searched {
    /// What is known of what is sought under this number.
    pub fn get(&self, number: usize) -> Option<&Looked> {
        self.answers.get(self.which[number]?)
    }
}

/// A root file, and how it is searched.
#[derive(Clone, Copy)]
pub struct Search<'a> {
    pub root: CheckedRoot<'a>,
    pub by: By,
    pub masks: Masks,
}

impl Search<'_> {
    /// Searches all. `known` is called whenever more is known.
    pub fn all(
        self,
        batch: &Batch<'_>,
        output: &mut Output,
        mut known: impl FnMut(&Searched, &mut Output) -> Result<(), Failure>,
    ) -> Result<Searched, Failure> {
        output.phase("searching the root file");
        let searched = match self.by {
            By::Number => self.numbers(batch),
            By::Path => self.paths(batch, output, &mut known)?,
        };
        known(&searched, output)?;
        Ok(searched)
    }

    /// All file numbers, in one pass over the file.
    fn numbers(self, batch: &Batch<'_>) -> Searched {
        let Masks { locale, unwanted } = self.masks;
        let texts = batch.sought.iter().map(|sought| sought.text());
        let ids: Vec<_> = texts.map(|text| text.map(file_number)).collect();
        let mut rising: Vec<(u32, usize)> = (0..)
            .zip(&ids)
            .filter_map(|(number, id)| Some((*id.as_ref()?.as_ref().ok()?, number)))
            .collect();
        rising.sort_unstable();
        let sorted: Vec<_> = rising.iter().map(|(id, _)| *id).collect();
        let keys = self.root.find_many(&sorted, locale, unwanted);
        let keys = keys.expect("the file is checked and the list rises");
        let which = (0..ids.len()).map(Some).collect();
        let looked = ids.into_iter().map(|id| match id {
            Some(Err(why)) => Err(Box::new(Failure::unfit(why))),
            Some(Ok(_)) | None => Ok(None),
        });
        let mut answers: Vec<Looked> = looked.collect();
        for ((id, number), key) in rising.into_iter().zip(keys) {
            let place = None;
            answers[number] = Ok(key.map(|key| Record { id, key, place }));
        }
        Searched { which, answers }
    }

    /// Each different path, on all cores.
    fn paths(
        self,
        batch: &Batch<'_>,
        output: &mut Output,
        known: &mut impl FnMut(&Searched, &mut Output) -> Result<(), Failure>,
    ) -> Result<Searched, Failure> {
        let (texts, which) = different(batch);
        let answers = Vec::with_capacity(texts.len());
        let mut searched = Searched { which, answers };
        parallel::each(
            &texts,
            |path| self.path(path),
            |_, looked| {
                searched.answers.push(looked);
                known(&searched, output)?;
                output.progress_of("paths", searched.answers.len(), texts.len());
                Ok(())
            },
        )?;
        Ok(searched)
    }

    /// One path, in a pass of its own.
    fn path(self, path: &[u8]) -> Looked {
        let found = path::find(self.root, path, self.masks)?;
        Ok(found.map(|PathRecord { id, key, place }| Record {
            id,
            key,
            place: Some(place),
        }))
    }

    /// Where the content key of a file number stands.
    pub fn place(self, id: u32) -> Option<usize> {
        let Masks { locale, unwanted } = self.masks;
        let record = self.root.find(id, locale, unwanted);
        record.map(|record| record.place)
    }
}

/// The texts that differ, in the order in which they are first met, and for each that is sought the
/// number of its text.
fn different<'a>(batch: &'a Batch<'_>) -> (Vec<&'a [u8]>, Vec<Option<usize>>) {
    let mut numbers = HashMap::new();
    let mut texts = Vec::new();
    let which = batch.sought.iter().map(|sought| {
        let text = sought.text()?;
        Some(*numbers.entry(text).or_insert_with(|| {
            texts.push(text);
            texts.len() - 1
        }))
    });
    let which = which.collect();
    (texts, which)
}
