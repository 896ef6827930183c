//! Keys in many indexes, each read and searched once, on all cores.

use std::ffi::{OsStr, OsString};
use std::sync::atomic::{AtomicUsize, Ordering};

use dwarnizza::index::{IndexEntry, Lookup, Page, Settings, Slot};
use dwarnizza::{CheckedIndex, Key, Refusal, UncheckedIndex};

use super::{IndexFile, archive};
use crate::command::{Arguments, Choice};
use crate::files;
use crate::name::shown;
use crate::output::{Field, Output};
use crate::parallel;
use crate::status::Failure;

/// The option that names indexes.
pub const INDEX: Choice = Choice {
    name: "--index",
    value: Some("PATH..."),
    summary: "an archive index, or a folder whose .index files are taken; may be given several times",
};

/// The indexes that are to be searched.
pub fn index_names(arguments: &Arguments) -> Result<Vec<OsString>, Failure> {
    let mut paths = arguments.values(INDEX.name);
    if let Some(file) = arguments.value(files::FILES_FROM.name) {
        paths.extend(files::names_from(file)?);
    }
    if paths.is_empty() {
        return Err(Failure::usage("an index is missing: --index PATH"));
    }
    match files::indexes(&paths) {
        names if names.is_empty() => Err(files::no_index()),
        names => Ok(names),
    }
}

/// What is judged of an index before it is searched.
#[derive(Clone, Copy)]
pub enum Before {
    /// All of it.
    FullCheck,
    /// Footer and length alone: the search may miss a key.
    FooterAndLength,
}

/// What the indexes have of the sought keys, of those that were searched so far.
pub struct Searched<'a> {
    names: &'a [OsString],
    /// Where the first index that has a key places it, for each key.
    found: Vec<Option<Place>>,
    /// The key lengths of the indexes, and the first index that has each.
    pub key_lengths: Vec<(u8, OsString)>,
    /// An index was refused or could not be read: what is nowhere else may be there.
    pub incomplete: bool,
}

/// Where a key is placed.
#[derive(Clone, Copy)]
struct Place {
    /// The number of the index.
    index: usize,
    settings: Settings,
    size: u32,
    archive: u32,
    offset: u64,
}

impl<'a> Searched<'a> {
    /// What the first index that has a key says of it.
    pub fn fields(&self, number: usize) -> Option<Vec<Field>> {
        let place = self.found[number]?;
        Some(vec![
            ("size", place.size.into()),
            ("archive", archive(place.settings, place.archive)),
            ("offset", place.offset.into()),
            ("index", shown(&self.names[place.index]).into()),
        ])
    }

    /// Takes what one index has: the first index that has a key answers.
    fn take(&mut self, name: &OsStr, finds: Finds) {
        let length = finds.key_length;
        if self.key_lengths.iter().all(|(known, _)| *known != length) {
            self.key_lengths.push((length, name.to_owned()));
        }
        for (number, place) in finds.found {
            self.found[number].get_or_insert(place);
        }
    }
}

/// A sought key, with zeros behind it, and its number.
type Numbered = ([u8; 16], usize);

/// Keys of one length are in the order of these numbers.
fn rank(key: &[u8]) -> u128 {
    let mut padded = [0; 16];
    padded[..key.len()].copy_from_slice(key);
    u128::from_be_bytes(padded)
}

/// The sought keys.
struct Sought {
    /// In rising order, by their lengths.
    rising: Vec<Vec<Numbered>>,
    /// The lowest number of an index that has a key, of those searched so far, by the key's number.
    first: Vec<AtomicUsize>,
}

impl Sought {
    fn new(keys: &[Option<Key>]) -> Self {
        let mut rising = vec![Vec::new(); 17];
        for (number, key) in keys.iter().enumerate() {
            if let Some(key) = key {
                let bytes = key.as_bytes();
                rising[bytes.len()].push((rank(bytes).to_be_bytes(), number));
            }
        }
        rising.iter_mut().for_each(|keys| keys.sort_unstable());
        let first = keys.iter().map(|_| AtomicUsize::new(usize::MAX));
        Self {
            rising,
            first: first.collect(),
        }
    }

    /// The keys of a length that stand from this key to that one.
    fn between(&self, first: &[u8], last: &[u8]) -> &[Numbered] {
        let keys = &self.rising[first.len()];
        let start = keys.partition_point(|(key, _)| rank(key) < rank(first));
        let end = keys.partition_point(|(key, _)| rank(key) <= rank(last));
        &keys[start..end]
    }
}

/// Searches the keys in each index. One that is refused or cannot be read is told, and left out.
/// `known` is called after each index.
pub fn search<'a>(
    names: &'a [OsString],
    keys: &[Option<Key>],
    before: Before,
    output: &mut Output,
    mut known: impl FnMut(&Searched<'a>, &mut Output) -> Result<(), Failure>,
) -> Result<Searched<'a>, Failure> {
    let sought = Sought::new(keys);
    let mut searched = Searched {
        names,
        found: vec![None; keys.len()],
        key_lengths: Vec::new(),
        incomplete: false,
    };
    output.phase(&format!("0 of {} indexes", names.len()));
    let mut done = 0;
    let numbered: Vec<_> = names.iter().enumerate().collect();
    parallel::each(
        &numbered,
        |(number, name)| search_one(*number, name, before, &sought),
        |(_, name), finds| {
            done += 1;
            match finds {
                Ok(finds) => searched.take(name, finds),
                Err(failure) => {
                    searched.incomplete = true;
                    output.failed_file(name, &failure)?;
                }
            }
            known(&searched, output)?;
            output.progress(done, names.len());
            Ok(())
        },
    )?;
    Ok(searched)
}

/// What one index has of the sought keys.
struct Finds {
    key_length: u8,
    /// The numbers of the keys, and their places.
    found: Vec<(usize, Place)>,
}

/// Searches the keys in one index.
fn search_one(
    number: usize,
    name: &OsStr,
    before: Before,
    sought: &Sought,
) -> Result<Finds, Failure> {
    let file = IndexFile::read(name)?;
    let refused = |refusal| file.refused(refusal);
    let search = |settings| One {
        sought,
        number,
        settings,
    };
    let (settings, found) = match before {
        Before::FullCheck => {
            let index = file.check()?;
            let settings = index.settings();
            (settings, search(settings).checked(index))
        }
        Before::FooterAndLength => {
            let index = file.unchecked();
            let settings = index.summary().map_err(refused)?.settings;
            let found = search(settings).unchecked(index);
            (settings, found.map_err(refused)?)
        }
    };
    for (key, _) in &found {
        sought.first[*key].fetch_min(number, Ordering::Relaxed);
    }
    Ok(Finds {
        key_length: settings.key_length,
        found,
    })
}

/// The search of one index.
struct One<'a> {
    sought: &'a Sought,
    /// The number of the index.
    number: usize,
    settings: Settings,
}

impl One<'_> {
    /// Of the sought keys, those between the index's first and last are looked up one by one where
    /// they are few beside its entries. Else its list is gone through once, as both rise.
    fn checked(&self, index: CheckedIndex<'_>) -> Vec<(usize, Place)> {
        let Some([first, last]) = ends(index) else {
            return Vec::new();
        };
        let keys = self.sought.between(first, last);
        if keys.len() > index.summary().entries / 2 {
            return self.go_through(index, keys);
        }
        let wanted = keys.iter().filter(|key| self.is_wanted(key));
        let found = wanted.filter_map(|key| {
            let found = index.find(&key.0[..first.len()]);
            let at = found.expect("it has the index's length").found()?;
            let entry = index.entry_at(at.page, at.slot);
            Some(self.place(key, &entry.expect("it was found there")))
        });
        found.collect()
    }

    /// All keys of the index's length are looked up: its order is not known.
    fn unchecked(&self, index: UncheckedIndex<'_>) -> Result<Vec<(usize, Place)>, Refusal> {
        let length = usize::from(self.settings.key_length);
        let keys = self.sought.rising[length].iter();
        let wanted = keys.filter(|key| self.is_wanted(key));
        let found = wanted.filter_map(|key| {
            let entry = match index.find(&key.0[..length]) {
                Ok(Lookup::Absent { .. }) => return None,
                Ok(Lookup::Found(at)) => index.entry_at(at.page, at.slot).transpose()?,
                Err(refusal) => Err(refusal),
            };
            Some(entry.map(|entry| self.place(key, &entry)))
        });
        found.collect()
    }

    fn go_through(&self, index: CheckedIndex<'_>, mut keys: &[Numbered]) -> Vec<(usize, Place)> {
        let list = index.list();
        let mut entries = list.chunks_exact(list.len() / index.summary().entries);
        let key_length = usize::from(self.settings.key_length);
        let mut found = Vec::new();
        for (page, slot) in places(index) {
            let entry = entries.next().expect("the list has it");
            let key = rank(&entry[..key_length]);
            keys = &keys[below(keys, key)..];
            let same = keys.iter().take_while(|(other, _)| rank(other) == key);
            let mut wanted = same.filter(|key| self.is_wanted(key)).peekable();
            if wanted.peek().is_some() {
                let entry = index.entry_at(page, slot).expect("it is there");
                found.extend(wanted.map(|key| self.place(key, &entry)));
            }
        }
        found
    }

    /// Whether no index before this one has the key.
    fn is_wanted(&self, (_, number): &Numbered) -> bool {
        self.sought.first[*number].load(Ordering::Relaxed) >= self.number
    }

    /// The place of a key that this index has.
    fn place(&self, (_, number): &Numbered, entry: &IndexEntry<'_>) -> (usize, Place) {
        let place = Place {
            index: self.number,
            settings: self.settings,
            size: entry.size,
            archive: entry.archive,
            offset: entry.offset,
        };
        (*number, place)
    }
}

/// The first and the last key of an index; none where it has no entries. The last is that stored of
/// the last page, which the full check compared with the entry.
fn ends(index: CheckedIndex<'_>) -> Option<[&[u8]; 2]> {
    let first = index.entry_at(Page(0), Slot(0))?;
    let last = index.page(index.summary().page_numbers().next_back()?)?;
    Some([first.key, &index.bytes()[last.last_key]])
}

/// The pages and slots of the entries of an index, in order.
fn places(index: CheckedIndex<'_>) -> impl Iterator<Item = (Page, Slot)> {
    index.summary().page_numbers().flat_map(move |page| {
        let parts = index.page(page).expect("it has this page");
        parts.slots().map(move |slot| (page, slot))
    })
}

/// How many of these keys, which rise, are below this one. It is quick where they are few.
fn below(keys: &[Numbered], key: u128) -> usize {
    let is_below = |(other, _): &Numbered| rank(other) < key;
    let mut end = 1;
    while keys.get(end).is_some_and(is_below) {
        end *= 2;
    }
    let start = end / 2;
    start + keys[start..keys.len().min(end + 1)].partition_point(is_below)
}
