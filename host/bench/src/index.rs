//! Archive indexes of W 4, and of K 16 where nothing else is said.

use dwarnizza_sys::dwarnizza_index_lookup;
use fuzz::export::{
    ABSENT, ANSWERED, Export, Given, INDEX_BOUND, INDEX_CHECK, INDEX_ENTRY, INDEX_FOOTER,
    INDEX_LIST, INDEX_LISTING, INDEX_LOOKUP, INDEX_LOOSE, INDEX_PAGE, INDEX_SETTINGS, INDEX_WRITE,
    INDEX_WRITTEN_LENGTH,
};
use second::index::{PAGE, Settings, listing, write};

use crate::keys::{Key, Sought, both, by_key};
use crate::measure::mixed;
use crate::table::{Call, Table};

/// The settings of the indexes here.
pub const SETTINGS: Settings = Settings {
    version: 1,
    offset_width: 4,
    key_length: 16,
};

/// How many entries the indexes have.
const ENTRIES: [usize; 3] = [1700, 50_000, 1_000_000];

/// How many entries the indexes have whose listing is made.
const LISTED: [usize; 3] = [17, 170, 2550];

/// How many entries the indexes have that are searched. The last has the most that may be.
pub const SEARCHED: [usize; 3] = [50_000, 1_000_000, 8_388_608];

/// How many bytes of a footer are hashed.
const FOOTER_HASHED: usize = 20;

/// An index and its list.
pub struct File {
    pub settings: Settings,
    pub entries: usize,
    pub list: Vec<u8>,
    pub index: Vec<u8>,
}

impl File {
    /// An index of this number of entries, whose keys, sizes and locations are spread by a fixed
    /// rule: the first eight bytes of the keys are evenly apart.
    pub fn new(entries: usize) -> Self {
        Self::with_keys(SETTINGS.key_len(), entries)
    }

    /// The same with the first bytes of each key alone, as many as this.
    pub fn with_keys(key_length: usize, entries: usize) -> Self {
        let settings = Settings {
            key_length: key_length as u32,
            ..SETTINGS
        };
        let mut list = Vec::with_capacity(entries * settings.entry_len());
        for number in 0..entries {
            list.extend(&key(number, entries)[..key_length]);
            list.extend(mixed(number as u64).to_be_bytes());
        }
        let mut index = vec![0; settings.file_len(entries)];
        write(settings, &list, &mut index).expect("the list may be written");
        Self {
            settings,
            entries,
            list,
            index,
        }
    }

    /// The pages, each by itself.
    fn pages(&self) -> Vec<&[u8]> {
        let pages = self.settings.pages(self.entries) * PAGE;
        self.index[..pages].chunks_exact(PAGE).collect()
    }

    /// The bytes of the footer that are hashed.
    fn footer(&self) -> &[u8] {
        &self.index[self.index.len() - FOOTER_HASHED..]
    }

    /// A call that is given the index alone.
    fn call<'a>(&'a self, export: &'static Export, hashed: Vec<&'a [u8]>) -> Call<'a> {
        Call {
            export,
            kind: "",
            size: self.entries,
            unit: "entries",
            given: Box::new(|_| Given::new([&self.index], [])),
            result: ANSWERED,
            output: 0,
            hashed,
        }
    }

    /// A call that is given the page and the slot of an entry too.
    fn call_of_entry(&self) -> Call<'_> {
        let (entries, full) = (self.entries as u64, self.settings.entries_per_page() as u64);
        Call {
            given: Box::new(move |number| {
                let entry = mixed(number) % entries;
                Given::new([&self.index], [entry / full, entry % full])
            }),
            ..self.call(&INDEX_ENTRY, vec![self.footer()])
        }
    }

    /// A call that is given a page too.
    fn call_of_page(&self) -> Call<'_> {
        let pages = self.settings.pages(self.entries) as u64;
        Call {
            given: Box::new(move |number| Given::new([&self.index], [mixed(number) % pages])),
            ..self.call(&INDEX_PAGE, vec![self.footer()])
        }
    }

    /// A call that is given the list and the settings.
    fn call_of_list<'a>(&'a self, export: &'static Export, hashed: Vec<&'a [u8]>) -> Call<'a> {
        let Settings {
            version,
            offset_width,
            key_length,
        } = self.settings;
        let settings = [version, offset_width, key_length];
        Call {
            given: Box::new(move |_| Given::new([&self.list], settings.map(u64::from))),
            ..self.call(export, hashed)
        }
    }
}

/// The key of the entry with this number, in an index of `entries` entries.
pub fn key(number: usize, entries: usize) -> Key {
    let high = number as u64 * (u64::MAX / entries as u64);
    both(high, mixed(number as u64))
}

/// The lookup of a key by the library: result and words.
pub fn lookup(index: &[u8], key: &[u8]) -> (u32, [u64; 8]) {
    let mut answer = [0; 8];
    // SAFETY: pointers and lengths are those of slices.
    let result = unsafe {
        let (at, key_at) = (index.as_ptr(), key.as_ptr());
        dwarnizza_index_lookup(at, index.len(), key_at, key.len(), &mut answer)
    };
    (result, answer)
}

/// Prints the lines.
pub fn measure(table: &mut Table) {
    let files = ENTRIES.map(File::new);
    let check = |file| File::call(file, &INDEX_CHECK, file.pages());
    table.calls(files.iter().map(check));
    by_footer(table, &files);
    lists(table, &files);
    listings(table);
    lookups(table);
}

/// The calls that judge the footer and the length alone.
fn by_footer(table: &mut Table, files: &[File]) {
    for export in [&INDEX_SETTINGS, &INDEX_FOOTER, &INDEX_BOUND] {
        let call = |file| File::call(file, export, vec![file.footer()]);
        table.calls(files.iter().map(call));
    }
    // The offset width is that of an archive index, so that nothing is hashed.
    table.calls(files.iter().map(|file| Call {
        result: ABSENT,
        ..file.call(&INDEX_LOOSE, Vec::new())
    }));
    table.calls(files.iter().map(File::call_of_entry));
    table.calls(files.iter().map(File::call_of_page));
}

/// The list of an index, and the index of a list.
fn lists(table: &mut Table, files: &[File]) {
    table.calls(files.iter().map(|file| Call {
        output: file.list.len(),
        ..file.call(&INDEX_LIST, file.pages())
    }));
    table.calls(files.iter().map(|file| Call {
        output: file.index.len(),
        ..file.call_of_list(&INDEX_WRITE, file.pages())
    }));
    let length = |file| File::call_of_list(file, &INDEX_WRITTEN_LENGTH, Vec::new());
    table.calls(files.iter().map(length));
}

fn listings(table: &mut Table) {
    let files = LISTED.map(File::new);
    table.calls(files.iter().map(|file| {
        let text = listing(&file.index).expect("the index is good");
        Call {
            output: text.len(),
            ..file.call(&INDEX_LISTING, file.pages())
        }
    }));
}

fn lookups(table: &mut Table) {
    let files = SEARCHED.map(File::new);
    for sought in [Sought::Found, Sought::Absent] {
        let keys = SEARCHED.map(|entries| sought.keys(entries, key));
        table.calls(files.iter().zip(&keys).map(|(file, keys)| Call {
            kind: sought.kind(),
            given: by_key(&file.index, keys),
            result: sought.result(),
            ..file.call(&INDEX_LOOKUP, vec![file.footer()])
        }));
    }
}
