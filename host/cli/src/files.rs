//! Which files a command takes: names, folders, and lists of names.

use std::ffi::{OsStr, OsString};
use std::fs;
use std::io;
use std::os::unix::ffi::OsStringExt;
use std::path::{Path, PathBuf};

use crate::command::Choice;
use crate::input::read;
use crate::name::shown;
use crate::status::{Failure, Status};

/// The option that names a file of names.
pub const FILES_FROM: Choice = Choice {
    name: "--files-from",
    value: Some("FILE"),
    summary: "take also the names in FILE: one on each line, or each closed by a zero byte",
};

/// The names in a file: each closed by a zero byte where it has one, else by a line feed.
pub fn names_from(file: &OsStr) -> Result<Vec<OsString>, Failure> {
    let bytes = read(file)?;
    let end = if bytes.contains(&0) { 0 } else { b'\n' };
    let names = bytes.split(|&byte| byte == end);
    let names = names.filter(|name| !name.is_empty());
    Ok(names
        .map(|name| OsString::from_vec(name.to_vec()))
        .collect())
}

/// Each name that is a file, and for each that is a folder the files in it and below it whose names
/// end in `.index`, in the order of their paths. Folders that are links are not entered. A folder
/// that cannot be read stays in the list: to read it as a file fails, and tells why.
pub fn indexes(names: &[OsString]) -> Vec<OsString> {
    let mut found = Vec::new();
    for name in names {
        if name != "-" && Path::new(name).is_dir() {
            walk(Path::new(name), &mut found);
        } else {
            found.push(name.clone());
        }
    }
    found
}

/// There is nothing to do, which is hardly what was meant.
pub fn no_index() -> Failure {
    Failure::new(Status::Absent, "there is no file whose name ends in .index")
}

/// Refuses a folder.
pub fn no_folder(name: &OsStr) -> Result<(), Failure> {
    if name != "-" && Path::new(name).is_dir() {
        let name = shown(name);
        return Err(Failure::usage(format!(
            "{name} is a folder; -r takes the indexes in it"
        )));
    }
    Ok(())
}

fn walk(folder: &Path, found: &mut Vec<OsString>) {
    let Ok(entries) = sorted(folder) else {
        found.push(folder.as_os_str().to_owned());
        return;
    };
    for (path, is_folder) in entries {
        if is_folder {
            walk(&path, found);
        } else if path.extension() == Some(OsStr::new("index")) && !path.is_dir() {
            found.push(path.into_os_string());
        }
    }
}

/// What a folder holds, by name, and whether each is a folder itself.
fn sorted(folder: &Path) -> io::Result<Vec<(PathBuf, bool)>> {
    let mut entries = Vec::new();
    for entry in fs::read_dir(folder)? {
        let entry = entry?;
        entries.push((entry.path(), entry.file_type()?.is_dir()));
    }
    entries.sort();
    Ok(entries)
}
