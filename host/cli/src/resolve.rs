//! `dwarnizza resolve`: from file numbers or paths to their places in archives.

use std::ffi::OsStr;

use dwarnizza::{CheckedEncoding, Encoding, Key, Reason, Refusal};

use crate::batch::{Answer, Batch, Teller};
use crate::command::{Arguments, Choice, Command};
use crate::files;
use crate::index::search::{Before, INDEX, Searched, index_names, search};
use crate::masks::{LOCALE, Masks, WITHOUT};
use crate::name::hex;
use crate::output::{Field, Output};
use crate::parallel;
use crate::root;
use crate::root::search::{By, Looked, PATH, Record, path_help};
use crate::status::Failure;
use crate::worklist::{self, COLUMN, COLUMN_NAME, HEADER, SEPARATOR, WORKLIST, worklist_help};

const ROOT: Choice = Choice {
    name: "--root",
    value: Some("FILE"),
    summary: "the root file, taken out of its envelope",
};

const ENCODING: Choice = Choice {
    name: "--encoding",
    value: Some("FILE"),
    summary: "the encoding file, taken out of its envelope",
};

pub const COMMAND: Command = Command {
    name: "resolve",
    operands: "--root FILE --encoding FILE --index PATH... [NUMBER | PATH]...",
    summary: "find the archives, offsets and sizes of files by their file numbers or paths",
    options: &[
        ROOT,
        ENCODING,
        INDEX,
        files::FILES_FROM,
        PATH,
        LOCALE,
        WITHOUT,
        WORKLIST,
        COLUMN,
        COLUMN_NAME,
        HEADER,
        SEPARATOR,
    ],
    help: concat!(
        "\
Lines, in the order of the file numbers; ROW is the worklist's row, - for a NUMBER that was an operand:
  found NUMBER CONTENT-KEY KEY SIZE ARCHIVE OFFSET INDEX ROW
      KEY is the first encoding key; INDEX is the first that has it; ARCHIVE is - but with offset
      width 6, and the archive then has the name of the index
  absent NUMBER LINK ROW
      LINK is the first that has no entry: root, encoding or index
  unknown NUMBER index ROW
      no index has it, but one was refused or could not be read, and may have it
  refused TEXT ROW
      no file number, which is decimal digits without a leading zero, up to 4294967295; or a row that
      has none
With --path:
  found PATH NUMBER CONTENT-KEY KEY SIZE ARCHIVE OFFSET INDEX ROW
      NUMBER and CONTENT-KEY are those of the first record that has the path's name hash
  absent PATH LINK ROW
  unknown PATH index ROW
  refused PATH ROW NUMBER PLACE, or refused TEXT ROW
      longer than 1,024 bytes (110); or empty, or a row that has none
All files are checked whole first. An index that is refused or cannot be read has a line
`refused FILE NUMBER PLACE` or `failed FILE` before the lines that were not known until then, and the
others are searched; a root file or encoding file has such a line alone.

",
        path_help!(),
        "\n\n",
        worklist_help!()
    ),
    run,
};

fn run(arguments: &Arguments, output: &mut Output) -> Result<(), Failure> {
    let (by, masks) = (By::of(arguments), Masks::of(arguments)?);
    let file = worklist::File::from_arguments(arguments, output)?;
    let batch = Batch::new(by.names(), &arguments.operands, file.as_ref())?;
    let named = |option: Choice| {
        let missing = || Failure::usage(format!("{} is missing", option.name));
        arguments.value(option.name).ok_or_else(missing)
    };
    let (root, encoding) = (named(ROOT)?, named(ENCODING)?);
    let names = index_names(arguments)?;
    let chain = Chain {
        root,
        encoding,
        by,
        masks,
    };
    let links = chain.follow(&batch, output)?;
    let mut teller = Teller::new(&batch);
    teller.tell(output, |number, text| links[number].before_index(by, text))?;
    let keys: Vec<_> = links.iter().map(Link::key).collect();
    let searched = search(&names, &keys, Before::FullCheck, output, |found, output| {
        teller.tell(output, |number, text| {
            let answer = links[number].in_index(by, found.fields(number));
            answer.or_else(|| links[number].before_index(by, text))
        })
    })?;
    teller.tell(output, |number, text| {
        let answer = links[number].in_index(by, searched.fields(number));
        let answer = answer.or_else(|| links[number].before_index(by, text));
        answer.or_else(|| Some(in_no_index(&links[number], &searched)))
    })?;
    teller.end(output)
}

/// How far a file was followed in root file and encoding file.
enum Link {
    /// The root file has no entry of it, or a row has no text.
    Root,
    /// The encoding file has no entry of it.
    Encoding,
    /// To its encoding key.
    Key {
        record: Record,
        key: Key,
    },
    Refused(Failure),
}

impl Link {
    fn key(&self) -> Option<Key> {
        match self {
            Self::Key { key, .. } => Some(*key),
            _ => None,
        }
    }

    /// What is known of a file before the indexes are searched.
    fn before_index(&self, by: By, text: &[u8]) -> Option<Answer> {
        match self {
            Self::Root => Some(absent("root", by.look(text))),
            Self::Encoding => Some(absent("encoding", None)),
            Self::Refused(failure) => Some(Answer::Refused(failure.clone())),
            Self::Key { .. } => None,
        }
    }

    /// What is known of a file whose key an index has, with this place.
    fn in_index(&self, by: By, place: Option<Vec<Field>>) -> Option<Answer> {
        let Self::Key { record, key } = self else {
            return None;
        };
        let mut fields = record.fields(by);
        fields.push(("key", hex(key.as_bytes()).into()));
        fields.extend(place?);
        Some(Answer::Found(fields))
    }
}

/// Root file and encoding file, and how the first is searched.
struct Chain<'a> {
    root: &'a OsStr,
    encoding: &'a OsStr,
    by: By,
    masks: Masks,
}

impl Chain<'_> {
    /// Follows all that is sought. Both files are checked before the first is searched, which may
    /// take long.
    fn follow(&self, batch: &Batch<'_>, output: &mut Output) -> Result<Vec<Link>, Failure> {
        output.phase("reading the root file");
        let root_file = root::read(self.root)?;
        let root = root::checked(self.root, &root_file)?;
        output.phase("reading the encoding file");
        let file = crate::encoding::read(self.encoding)?;
        let refused = |refusal| crate::encoding::refused(self.encoding, refusal, &file);
        let encoding = Encoding::check(&file).map_err(refused)?;
        let search = root::search::Search {
            root,
            by: self.by,
            masks: self.masks,
        };
        let searched = search.all(batch, output, |_, _| Ok(()))?;
        output.phase("searching the encoding file");
        let looked: Vec<_> = (0..batch.sought.len())
            .map(|number| searched.get(number))
            .collect();
        let follow = |looked: &Option<&Looked>| match looked {
            Some(Ok(Some(record))) => {
                follow(encoding, *record).unwrap_or_else(|refusal| Link::Refused(refused(refusal)))
            }
            Some(Err(failure)) => Link::Refused((**failure).clone()),
            Some(Ok(None)) | None => Link::Root,
        };
        follow_all(&looked, follow, output)
    }
}

/// How many content keys are looked up before the progress is shown.
const PART: usize = 1024;

/// Follows each through the encoding file.
fn follow_all<T: Sync>(
    looked: &[T],
    follow: impl Fn(&T) -> Link + Sync,
    output: &mut Output,
) -> Result<Vec<Link>, Failure> {
    let parts: Vec<_> = looked.chunks(PART).collect();
    let mut links = Vec::new();
    parallel::each(
        &parts,
        |part| part.iter().map(&follow).collect::<Vec<_>>(),
        |_, part| {
            links.extend(part);
            output.progress_of("keys in the encoding file", links.len(), looked.len());
            Ok(())
        },
    )?;
    Ok(links)
}

/// Follows a content key through the encoding file, which may refuse its length.
fn follow(encoding: CheckedEncoding<'_>, record: Record) -> Result<Link, Refusal> {
    let Some(entry) = encoding.find_content(record.key)? else {
        return Ok(Link::Encoding);
    };
    let key = entry.keys().next().and_then(Key::from_bytes);
    Ok(Link::Key {
        record,
        key: key.expect("an entry has one key at least, of 1 to 16 bytes"),
    })
}

fn absent(link: &'static str, look: Option<&'static str>) -> Answer {
    Answer::Absent(vec![("link", link.into())], look)
}

/// What is answered where no index has the key of a file. An index whose keys have another length
/// cannot say that it is absent.
fn in_no_index(link: &Link, searched: &Searched<'_>) -> Answer {
    let length = link.key().map_or(0, |key| key.as_bytes().len());
    let mut lengths = searched.key_lengths.iter();
    match lengths.find(|(other, _)| usize::from(*other) != length) {
        Some((_, index)) => {
            let refusal = Refusal::new(Reason::IndexKeyLength, 0);
            Answer::Refused(Failure::refused(index, refusal, ""))
        }
        None if searched.incomplete => Answer::Unknown(vec![("link", "index".into())]),
        None => absent("index", None),
    }
}
