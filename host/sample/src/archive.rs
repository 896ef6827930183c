//! The archives of the sample build, their indexes and the index of all of them.

use second::index::{FOOTER, Settings, write};

use crate::content::{Content, envelope_key};
use crate::{digest, hex};

/// How many archives there are.
const ARCHIVES: usize = 3;

/// Where an envelope stands.
#[derive(Clone, Copy, Debug)]
pub struct Place {
    /// The number of its archive.
    pub archive: usize,
    /// Where it begins there.
    pub offset: usize,
}

/// An envelope in an archive.
#[derive(Clone, Debug)]
struct Stored {
    key: [u8; 16],
    size: usize,
    place: Place,
}

/// The archives and their indexes, by the numbers of the archives.
pub struct Archives {
    archives: [Vec<u8>; ARCHIVES],
    indexes: [Vec<u8>; ARCHIVES],
    /// The index of all archives.
    group: Vec<u8>,
    stored: Vec<Stored>,
}

impl Archives {
    /// The archives of these files, which take turns in them.
    pub fn of(contents: &[Content]) -> Self {
        let mut archives: [Vec<u8>; ARCHIVES] = Default::default();
        let mut stored = Vec::new();
        let in_archives = contents
            .iter()
            .filter(|content| content.is_known() && !content.is_loose());
        let envelopes = in_archives
            .flat_map(|content| [Some(content.envelope.clone()), content.second_envelope()]);
        for (turn, envelope) in envelopes.flatten().enumerate() {
            let archive = turn % ARCHIVES;
            stored.push(Stored {
                key: envelope_key(&envelope),
                size: envelope.len(),
                place: Place {
                    archive,
                    offset: archives[archive].len(),
                },
            });
            archives[archive].extend(envelope);
        }
        stored.sort_by_key(|stored| stored.key);
        let indexes = [0, 1, 2].map(|archive| {
            index(
                4,
                stored
                    .iter()
                    .filter(|stored| stored.place.archive == archive),
            )
        });
        let group = index(6, stored.iter());
        Self {
            archives,
            indexes,
            group,
            stored,
        }
    }

    /// Where the envelope of a file's first encoding key stands.
    pub fn place(&self, content: &Content) -> Option<Place> {
        let key = content.encoding_key();
        let stored = self.stored.iter().find(|stored| stored.key == key);
        stored.map(|stored| stored.place)
    }

    /// The name of an archive.
    pub fn name(&self, archive: usize) -> String {
        name(&self.indexes[archive])
    }

    /// The index of an archive.
    pub fn index(&self, archive: usize) -> &[u8] {
        &self.indexes[archive]
    }

    /// The files of the archives and the indexes.
    pub fn files(&self) -> Vec<(String, Vec<u8>)> {
        let mut files = Vec::new();
        for (archive, index) in self.archives.iter().zip(&self.indexes) {
            files.push((format!("archives/{}", name(index)), archive.clone()));
            files.push((format!("archives/{}.index", name(index)), index.clone()));
        }
        files.push((
            format!("group/{}.index", name(&self.group)),
            self.group.clone(),
        ));
        files
    }

    /// The two lines of a configuration that name the archives by their numbers, and the index of
    /// all of them.
    pub fn config(&self) -> String {
        let names = self.indexes.each_ref().map(|index| name(index)).join(" ");
        format!(
            "archives = {names}\narchive-group = {}\n",
            name(&self.group)
        )
    }
}

/// The index of these envelopes with this offset width.
fn index<'a>(offset_width: u32, stored: impl Iterator<Item = &'a Stored>) -> Vec<u8> {
    let settings = Settings {
        version: 1,
        offset_width,
        key_length: 16,
    };
    let list: Vec<u8> = stored
        .flat_map(|stored| entry(offset_width, stored))
        .collect();
    let mut file = vec![0; settings.file_len(list.len() / settings.entry_len())];
    write(settings, &list, &mut file).expect("the entries are in order");
    file
}

/// The bytes of an entry: the archive's number is in the index of all archives only.
fn entry(offset_width: u32, stored: &Stored) -> Vec<u8> {
    let mut entry = stored.key.to_vec();
    entry.extend((stored.size as u32).to_be_bytes());
    if offset_width == 6 {
        entry.extend((stored.place.archive as u16).to_be_bytes());
    }
    entry.extend((stored.place.offset as u32).to_be_bytes());
    entry
}

/// The name of an index, which is that of its archive: the MD5 of its footer.
fn name(index: &[u8]) -> String {
    hex(&digest(&index[index.len() - FOOTER..]))
}
