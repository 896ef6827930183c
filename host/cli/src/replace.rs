//! Output files that are there whole or not at all.

use std::ffi::{OsStr, OsString};
use std::fs::{self, File, OpenOptions};
use std::io::{self, BufWriter, Write};
use std::path::{Path, PathBuf};
use std::process;

use crate::command::Choice;
use crate::status::Failure;

/// The option that names an output file.
pub const OUT: Choice = Choice {
    name: "-o",
    value: Some("FILE"),
    summary: "write into this file, which gets its name when it is whole",
};

/// The option that lets an existing file go.
pub const FORCE: Choice = Choice {
    name: "--force",
    value: None,
    summary: "replace the output file where it is there already",
};

/// A file that gets its name when all its bytes are written and flushed. Until then it has a
/// name of its own in the same folder; where it is dropped before, that file goes.
pub struct NewFile {
    name: OsString,
    force: bool,
    temporary: PathBuf,
    file: Option<BufWriter<File>>,
}

impl NewFile {
    /// Begins the file of this name. An existing one stays unless `force`.
    pub fn create(name: &OsStr, force: bool) -> Result<Self, Failure> {
        let failed = |error| Failure::writing(name, &error);
        if name == "-" {
            return Err(Failure::usage(
                "the output goes into a file, not to standard output",
            ));
        }
        if !force && fs::symlink_metadata(name).is_ok() {
            return Err(exists(name));
        }
        if fs::metadata(name).is_ok_and(|existing| !existing.is_file()) {
            return Err(failed(io::Error::other("it is no file, and stays")));
        }
        let temporary = beside(Path::new(name)).map_err(failed)?;
        let mut options = OpenOptions::new();
        let file = options.write(true).create_new(true).open(&temporary);
        Ok(Self {
            name: name.to_owned(),
            force,
            file: Some(BufWriter::with_capacity(1 << 16, file.map_err(failed)?)),
            temporary,
        })
    }

    pub fn write(&mut self, bytes: &[u8]) -> Result<(), Failure> {
        let file = self.file.as_mut().expect("it is open until it is finished");
        file.write_all(bytes)
            .map_err(|error| Failure::writing(&self.name, &error))
    }

    /// Flushes the file and gives it its name.
    pub fn finish(mut self) -> Result<(), Failure> {
        let file = self.file.take().expect("it is finished once");
        match self.rename(file) {
            Ok(()) => Ok(()),
            Err(error) if error.kind() == io::ErrorKind::AlreadyExists => Err(exists(&self.name)),
            Err(error) => Err(Failure::writing(&self.name, &error)),
        }
    }

    fn rename(&self, file: BufWriter<File>) -> io::Result<()> {
        let file = file.into_inner().map_err(io::IntoInnerError::into_error)?;
        file.sync_all()?;
        // A link, unlike a new name, never takes the place of a file that came meanwhile; but not
        // every file system has links.
        let linked = match fs::hard_link(&self.temporary, &self.name) {
            Err(error) if error.kind() == io::ErrorKind::AlreadyExists && !self.force => {
                return Err(error);
            }
            linked => linked.is_ok(),
        };
        if !linked {
            fs::rename(&self.temporary, &self.name)?;
        }
        File::open(folder(Path::new(&self.name)))?.sync_all()
    }
}

impl Drop for NewFile {
    fn drop(&mut self) {
        // After a rename there is none.
        let _ = fs::remove_file(&self.temporary);
    }
}

fn exists(name: &OsStr) -> Failure {
    let error = io::Error::other("it is there already; --force replaces it");
    Failure::writing(name, &error)
}

fn folder(name: &Path) -> &Path {
    match name.parent() {
        Some(folder) if folder != Path::new("") => folder,
        _ => Path::new("."),
    }
}

/// A name in the same folder that no other run takes.
fn beside(name: &Path) -> io::Result<PathBuf> {
    let last = name.file_name().ok_or(io::ErrorKind::InvalidInput)?;
    let mut own = OsString::from(".");
    own.push(last);
    own.push(format!(".{}.part", process::id()));
    Ok(folder(name).join(own))
}

/// Writes a whole file.
pub fn write_file(name: &OsStr, bytes: &[u8], force: bool) -> Result<(), Failure> {
    let mut file = NewFile::create(name, force)?;
    file.write(bytes)?;
    file.finish()
}
