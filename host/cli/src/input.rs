//! Reading files by name; `-` is standard input. A file is judged by its length and its ends before
//! it is read whole.

use std::ffi::OsStr;
use std::fs::File;
use std::io::{self, Read, Seek, SeekFrom};
use std::os::fd::AsFd;

use crate::name::shown;
use crate::status::Failure;
use crate::words;

/// The most that is read of a file, so that a wrong name does not fill the memory.
pub const MOST: u64 = 4_000_000_000;

/// The most that is read of an index that is no file on disk, such as a pipe, whose last bytes and
/// length come last. The longest index has less.
const MOST_OF_A_STREAM: u64 = 256 << 20;

/// How many of a file's first bytes, and of its last, are looked at before it is read whole: more
/// than any header of fixed length and any footer has.
pub const END: u64 = 4096;

/// Opens the file of this name.
pub fn open(name: &OsStr) -> Result<File, Failure> {
    let file = if name == "-" {
        io::stdin().as_fd().try_clone_to_owned().map(File::from)
    } else {
        File::open(name)
    };
    file.map_err(|error| Failure::reading(name, &error))
}

/// The bytes of the file of this name.
pub fn read(name: &OsStr) -> Result<Vec<u8>, Failure> {
    read_judged(name, |_| None)
}

/// The same, judged by its length and its first bytes before it is read whole.
pub fn read_judged(
    name: &OsStr,
    judge: impl Fn(&[u8]) -> Option<Failure>,
) -> Result<Vec<u8>, Failure> {
    let failed = |error| Failure::reading(name, &error);
    let mut file = open(name)?;
    let mut bytes = read_at_most(&mut file, END).map_err(failed)?;
    if let Some(failure) = judge(&bytes) {
        return Err(failure);
    }
    let read = bytes.len() as u64;
    let length = length_left(&mut file).map_err(failed)?;
    if length.is_none_or(|length| read + length <= MOST) {
        bytes.extend(read_at_most(&mut file, MOST - read + 1).map_err(failed)?);
        if bytes.len() as u64 <= MOST {
            return Ok(bytes);
        }
    }
    Err(too_long(name, MOST))
}

/// The bytes of an archive index. A file on disk that fails the opening checks is refused by
/// its length and its last bytes, before it is read whole.
pub fn read_index(name: &OsStr) -> Result<Vec<u8>, Failure> {
    let failed = |error| Failure::reading(name, &error);
    let mut file = open(name)?;
    if let Some(length) = length_left(&mut file).map_err(failed)? {
        let [first, last] = ends(&mut file, length).map_err(failed)?;
        words::judge_footer(name, &first, &last, length)?;
        return read_at_most(&mut file, length).map_err(failed);
    }
    let bytes = read_at_most(&mut file, MOST_OF_A_STREAM + 1).map_err(failed)?;
    if bytes.len() as u64 > MOST_OF_A_STREAM {
        return Err(too_long(name, MOST_OF_A_STREAM));
    }
    Ok(bytes)
}

/// How many bytes are left to read of a file on disk; none where the input is none.
fn length_left(file: &mut File) -> io::Result<Option<u64>> {
    let metadata = file.metadata()?;
    if !metadata.is_file() {
        return Ok(None);
    }
    let place = file.stream_position()?;
    Ok(Some(metadata.len().saturating_sub(place)))
}

/// The first and the last of the next `length` bytes, which are then still to be read.
fn ends(file: &mut File, length: u64) -> io::Result<[Vec<u8>; 2]> {
    let start = file.stream_position()?;
    let first = read_at_most(file, END.min(length))?;
    file.seek(SeekFrom::Start(start + length.saturating_sub(END)))?;
    let last = read_at_most(file, END.min(length))?;
    file.seek(SeekFrom::Start(start))?;
    Ok([first, last])
}

/// The next bytes, `most` at most.
fn read_at_most(file: &mut File, most: u64) -> io::Result<Vec<u8>> {
    let mut bytes = Vec::new();
    file.take(most).read_to_end(&mut bytes)?;
    Ok(bytes)
}

/// There is more than is read.
fn too_long(name: &OsStr, most: u64) -> Failure {
    let words = format!(
        "{}: it has more than {most} bytes, and no more is read of such a file",
        shown(name)
    );
    Failure::unfit(words).of_file(name)
}
