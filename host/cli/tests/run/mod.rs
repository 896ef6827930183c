//! Running the program.
#![allow(dead_code)] // not every test needs every helper

use std::ffi::OsStr;
use std::fs::{self, File};
use std::io::{Seek, SeekFrom, Write};
use std::path::{Path, PathBuf};
use std::process::{Command, Output, Stdio};

/// Runs a command in a folder, with this standard input.
pub fn output(mut command: Command, folder: &Path, input: &[u8]) -> Output {
    let mut child = command
        .current_dir(folder)
        .stdin(Stdio::piped())
        .stdout(Stdio::piped())
        .stderr(Stdio::piped())
        .spawn()
        .expect("the command starts");
    let mut pipe = child.stdin.take().expect("its input is a pipe");
    // A command that refuses its arguments does not read its input.
    let _ = pipe.write_all(input);
    drop(pipe);
    child.wait_with_output().expect("the command ends")
}

/// The program with these arguments.
pub fn dwarnizza<S: AsRef<OsStr>>(arguments: impl IntoIterator<Item = S>) -> Command {
    let mut command = Command::new(env!("CARGO_BIN_EXE_dwarnizza"));
    command.args(arguments);
    command
}

/// An empty folder for one test.
pub fn folder(test: &str) -> PathBuf {
    let folder = Path::new(env!("CARGO_TARGET_TMPDIR")).join(test);
    let _ = fs::remove_dir_all(&folder);
    fs::create_dir_all(&folder).expect("the folder can be made");
    folder
}

/// What a run gave.
pub struct Run {
    pub status: i32,
    pub lines: String,
    pub errors: String,
}

/// Runs the program in a folder.
pub fn run<S: AsRef<OsStr>>(folder: &Path, arguments: impl IntoIterator<Item = S>) -> Run {
    run_with(folder, arguments, b"")
}

/// The same with this standard input.
pub fn run_with<S: AsRef<OsStr>>(
    folder: &Path,
    arguments: impl IntoIterator<Item = S>,
    input: &[u8],
) -> Run {
    ran(dwarnizza(arguments), folder, input)
}

/// Runs the program in a folder with room for 2 GB: a file that has more cannot be read whole.
pub fn run_in_2_gb<S: AsRef<OsStr>>(folder: &Path, arguments: impl IntoIterator<Item = S>) -> Run {
    let mut command = Command::new("sh");
    command
        .args(["-c", "ulimit -v 2000000 && exec \"$0\" \"$@\""])
        .arg(env!("CARGO_BIN_EXE_dwarnizza"))
        .args(arguments);
    ran(command, folder, b"")
}

/// Runs the program with a file as standard input, of which `read` bytes were read before.
pub fn run_from_file<S: AsRef<OsStr>>(
    folder: &Path,
    file: &str,
    read: u64,
    arguments: impl IntoIterator<Item = S>,
) -> Run {
    let mut input = File::open(folder.join(file)).expect("the file is there");
    input.seek(SeekFrom::Start(read)).expect("it is a file");
    let mut command = dwarnizza(arguments);
    let output = command.current_dir(folder).stdin(input).output();
    said(output.expect("the program runs"))
}

fn ran(command: Command, folder: &Path, input: &[u8]) -> Run {
    said(output(command, folder, input))
}

fn said(output: Output) -> Run {
    let text = |bytes| String::from_utf8(bytes).expect("the program writes text");
    Run {
        status: output.status.code().expect("the program ends by itself"),
        lines: text(output.stdout),
        errors: text(output.stderr),
    }
}

impl Run {
    /// It answered these lines with this status, and its words hold each of these.
    #[track_caller]
    pub fn expect(&self, status: i32, lines: &str, words: &[&str]) {
        assert_eq!(self.lines, lines, "{}", self.errors);
        assert_eq!(self.status, status, "{}", self.errors);
        for words in words {
            assert!(self.errors.contains(words), "{}", self.errors);
        }
        assert!(
            !words.is_empty() || self.errors.is_empty(),
            "{}",
            self.errors
        );
    }
}

/// Writes a file of a test.
pub fn put(folder: &Path, name: impl AsRef<Path>, bytes: impl AsRef<[u8]>) {
    let path = folder.join(name);
    fs::create_dir_all(path.parent().expect("it is in a folder")).expect("the folder can be made");
    fs::write(path, bytes).expect("the file can be written");
}

/// A file of a test has these bytes.
#[track_caller]
pub fn holds(folder: &Path, name: &str, bytes: &[u8]) {
    let found = fs::read(folder.join(name)).expect("the file is there");
    assert!(found == bytes, "{name} is another file");
}

/// The names in a folder, in order.
pub fn held(folder: &Path) -> Vec<String> {
    let entries = fs::read_dir(folder).expect("the folder can be read");
    let name = |entry: std::io::Result<fs::DirEntry>| entry.expect("it can be read").file_name();
    let mut names: Vec<String> = entries
        .map(|entry| name(entry).display().to_string())
        .collect();
    names.sort();
    names
}

/// Copies a folder and what is below it.
pub fn copy_tree(from: &Path, to: &Path) {
    fs::create_dir_all(to).expect("the folder can be made");
    for entry in fs::read_dir(from).expect("the folder can be read") {
        let path = entry.expect("it can be read").path();
        let copy = to.join(path.file_name().expect("it has a name"));
        if path.is_dir() {
            copy_tree(&path, &copy);
        } else {
            fs::copy(&path, &copy).expect("the file can be copied");
        }
    }
}

/// The repository's folder sample/.
pub fn sample() -> PathBuf {
    Path::new(env!("CARGO_MANIFEST_DIR")).join("../../sample")
}

/// Runs the program, which must end with this status, write this to standard output (anything where
/// it is empty and something was written) and have these words on standard error (nothing at all
/// where there are none). Gives all that it wrote.
pub fn expect(folder: &Path, arguments: &[&str], status: i32, stdout: &str, words: &str) -> String {
    let output = output(dwarnizza(arguments), folder, b"");
    let [out, errors] =
        [output.stdout, output.stderr].map(|bytes| String::from_utf8(bytes).expect("it is text"));
    let told = format!("{arguments:?}: {:?}\n{out}{errors}", output.status.code());
    assert_eq!(output.status.code(), Some(status), "{told}");
    assert!(stdout.is_empty() || out == stdout, "{told}");
    assert!(
        errors.contains(words) && (errors.is_empty() == words.is_empty()),
        "{told}"
    );
    out + &errors
}
