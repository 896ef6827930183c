//! Whether the entries of an index lie inside their archives.

use std::collections::BTreeMap;
use std::ffi::{OsStr, OsString};
use std::fs;
use std::io;
use std::path::{Path, PathBuf};
use std::sync::Arc;

use dwarnizza::index::IndexEntry;
use dwarnizza::{CheckedIndex, Key};

use crate::command::{Arguments, Choice};
use crate::input::read;
use crate::key_text::key;
use crate::name::shown;
use crate::output::{Field, Output, Value};
use crate::status::Failure;

pub const ARCHIVES: Choice = Choice {
    name: "--archives",
    value: Some("DIR"),
    summary: "say whether each entry lies inside its archive, a file of DIR",
};

pub const CDN_CONFIG: Choice = Choice {
    name: "--cdn-config",
    value: Some("FILE"),
    summary: "with --archives: the CDN config, whose line `archives` has the names of the archives in the\n      \
              order of their numbers, for indexes of offset width 6",
};

/// The archives by which entries are judged.
pub struct Archives {
    folder: PathBuf,
    /// The CDN config, and the names of the archives in the order of their numbers.
    config: Option<(OsString, Vec<String>)>,
}

impl Archives {
    /// The archives that the arguments name, where they do.
    pub fn from_arguments(arguments: &Arguments) -> Result<Option<Self>, Failure> {
        let config = arguments.value(CDN_CONFIG.name);
        let Some(folder) = arguments.value(ARCHIVES.name) else {
            return match config {
                Some(_) => Err(Failure::usage("--cdn-config wants --archives beside it")),
                None => Ok(None),
            };
        };
        let config = config.map(|file| Ok((file.to_owned(), names(file)?)));
        Ok(Some(Self {
            folder: folder.into(),
            config: config.transpose()?,
        }))
    }

    /// Judges the entries of an index of this name.
    pub fn judge(&self, name: &OsStr, index: CheckedIndex<'_>) -> Judged {
        let several = index.settings().has_archives();
        let mut judged = Judged {
            entries: index.summary().entries,
            outside: Vec::new(),
            unjudged: Vec::new(),
        };
        if several && self.config.is_none() {
            judged.unjudged.push((Value::None, no_config(name)));
            return judged;
        }
        let mut archives = BTreeMap::new();
        for entry in index.entries() {
            let archive = archives.entry(entry.archive).or_insert_with(|| {
                let archive = self.archive(name, several.then_some(entry.archive));
                let unjudged = |unjudged| judged.unjudged.push(unjudged);
                archive.map(Arc::new).map_err(unjudged).ok()
            });
            if let Some(archive) = archive {
                judged.outside.extend(Outside::new(&entry, archive));
            }
        }
        judged
    }

    /// The archive of this number, by the CDN config, or of the name that the index has.
    fn archive(&self, index: &OsStr, number: Option<u32>) -> Result<Archive, Unjudged> {
        let stem = Path::new(index).file_stem().unwrap_or_default();
        let name = match (number, &self.config) {
            (Some(number), Some((config, names))) => match names.get(number as usize) {
                Some(name) => OsString::from(name),
                None => return Err(no_such_number(index, number, config, names.len())),
            },
            _ => stem.to_owned(),
        };
        let shown = shown(&name);
        match length(&self.folder, &name) {
            Ok(length) => Ok(Archive {
                name: shown,
                length,
            }),
            Err(failure) => Err((shown.into(), failure)),
        }
    }
}

/// The names on the line `archives` of a CDN config, in their order.
fn names(file: &OsStr) -> Result<Vec<String>, Failure> {
    let unfit = |why: String| Failure::unfit(format!("{}: {why}", shown(file))).of_file(file);
    let bytes = read(file)?;
    let text = str::from_utf8(&bytes).map_err(|_| unfit("it is no text".to_string()))?;
    let mut settings = text.lines().filter_map(|line| line.split_once('='));
    let archives = settings.find(|(setting, _)| setting.trim() == "archives");
    let Some((_, names)) = archives else {
        return Err(unfit(
            "it has no line `archives = NAME...`, as a CDN config has".to_string(),
        ));
    };
    let names = names.split_whitespace().map(|name| {
        let name = key(name.as_bytes(), 16).map_err(|why| unfit(format!("archives: {why}")))?;
        Ok(name.to_string())
    });
    names.collect()
}

/// What was judged of an index.
pub struct Judged {
    entries: usize,
    /// The entries that end after their archive.
    outside: Vec<Outside>,
    /// The archives whose entries were not judged.
    unjudged: Vec<Unjudged>,
}

/// An archive in the folder.
struct Archive {
    name: String,
    length: u64,
}

/// An entry that ends after its archive.
struct Outside {
    key: Key,
    size: u32,
    offset: u64,
    archive: Arc<Archive>,
}

/// An archive by which nothing was judged, and why.
type Unjudged = (Value, Failure);

impl Judged {
    /// Says what was judged, and counts the entries outside.
    pub fn say(&self, name: &OsStr, output: &mut Output) -> Result<usize, Failure> {
        for (archive, failure) in &self.unjudged {
            output.answer("unjudged", &[file(name), ("archive", archive.clone())])?;
            output.fail(failure);
        }
        match self.outside.len() {
            0 if self.unjudged.is_empty() => {
                let entries = ("entries", self.entries.into());
                output.answer("inside", &[file(name), entries])?;
            }
            0 => {}
            _ => self.say_outside(name, output)?,
        }
        Ok(self.outside.len())
    }

    fn say_outside(&self, name: &OsStr, output: &mut Output) -> Result<(), Failure> {
        for entry in &self.outside {
            let mut fields = vec![file(name)];
            fields.extend(entry.fields());
            output.answer("outside", &fields)?;
        }
        output.fail(&Failure::unfit(format!(
            "{}: {} of {} entries lie outside their archive: it is cut, or is that of another index",
            shown(name),
            self.outside.len(),
            self.entries
        )));
        Ok(())
    }
}

fn file(name: &OsStr) -> Field {
    ("file", shown(name).into())
}

impl Outside {
    /// The entry, where it ends after its archive.
    fn new(entry: &IndexEntry<'_>, archive: &Arc<Archive>) -> Option<Self> {
        let end = entry.offset.saturating_add(entry.size.into());
        (end > archive.length).then(|| Self {
            key: Key::from_bytes(entry.key).expect("a key has 1 to 16 bytes"),
            size: entry.size,
            offset: entry.offset,
            archive: Arc::clone(archive),
        })
    }

    fn fields(&self) -> [Field; 5] {
        [
            ("key", self.key.to_string().into()),
            ("size", self.size.into()),
            ("offset", self.offset.into()),
            ("length", self.archive.length.into()),
            ("archive", self.archive.name.as_str().into()),
        ]
    }
}

/// The index is that of several archives, whose names nobody told.
fn no_config(index: &OsStr) -> Failure {
    Failure::unfit(format!(
        "{}: its entries lie in several archives; --cdn-config FILE tells their names",
        shown(index)
    ))
}

/// The CDN config has no archive of this number.
fn no_such_number(index: &OsStr, number: u32, config: &OsStr, archives: usize) -> Unjudged {
    let words = format!(
        "{}: it has entries in archive {number}, and {} names {archives} archives, from 0: it is \
         the config of another build",
        shown(index),
        shown(config)
    );
    (number.into(), Failure::unfit(words))
}

/// The length of the archive of this name, in the folder itself or, as mirrors have it, in folders
/// by the first two pairs of digits.
fn length(folder: &Path, name: &OsStr) -> Result<u64, Failure> {
    let plain = folder.join(name);
    let text = name.to_str();
    let pairs = text.and_then(|name| name.get(..2).zip(name.get(2..4)));
    let below = pairs.map(|(first, second)| folder.join(first).join(second).join(name));
    match (file_length(&plain), below) {
        (Err(error), Some(below)) if error.kind() == io::ErrorKind::NotFound => {
            // Where neither is there, the first is missed.
            file_length(&below).map_err(|other| match other.kind() {
                io::ErrorKind::NotFound => Failure::reading(plain.as_os_str(), &error),
                _ => Failure::reading(below.as_os_str(), &other),
            })
        }
        (length, _) => length.map_err(|error| Failure::reading(plain.as_os_str(), &error)),
    }
}

/// The length of a file; a folder of the name is none.
fn file_length(place: &Path) -> io::Result<u64> {
    let metadata = fs::metadata(place)?;
    if metadata.is_dir() {
        return Err(io::ErrorKind::IsADirectory.into());
    }
    Ok(metadata.len())
}
