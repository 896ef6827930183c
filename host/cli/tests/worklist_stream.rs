//! Answers of worklists come as soon as they are known, and progress is shown in every phase.

mod run;

use std::fs::File;
use std::io::{BufRead, BufReader, Read};
use std::path::{Path, PathBuf};
use std::process::{Command, Stdio};
use std::thread;
use std::time::Duration;

use forge::counted::{W4, index, key};
use run::{dwarnizza, folder, put, sample};

/// A folder with an index and a pipe that nobody writes to, which stands for one that takes long.
fn folder_with_pipe(test: &str) -> PathBuf {
    let folder = folder(test);
    put(&folder, "index", index(W4, 3, 0));
    let made = Command::new("mkfifo").arg(folder.join("pipe")).status();
    assert!(made.expect("there is mkfifo").success());
    folder
}

/// How long a run may take to say what it knows.
const PATIENCE: Duration = Duration::from_secs(20);

/// Ends the pipe after a while, so that a run which says nothing before it ends too.
fn end_late(folder: &Path) {
    let pipe = folder.join("pipe");
    thread::spawn(move || {
        thread::sleep(PATIENCE);
        File::options().write(true).open(pipe)
    });
}

/// What a run says before it waits for the pipe: `lines` lines are awaited, then it is killed.
fn said_before_the_end(folder: &Path, arguments: &[&str], lines: usize) -> Vec<String> {
    end_late(folder);
    let mut command = dwarnizza(arguments);
    let command = command.current_dir(folder).stdout(Stdio::piped());
    let mut child = command.stderr(Stdio::null()).spawn().expect("it starts");
    let stdout = child.stdout.take().expect("it is a pipe");
    let mut said = BufReader::new(stdout);
    let mut lines: Vec<String> = (0..lines)
        .map(|_| {
            let mut line = String::new();
            said.read_line(&mut line).expect("it says lines");
            line
        })
        .collect();
    // It may have ended, where it said less.
    let _ = child.kill();
    child.wait().expect("it ends");
    let mut rest = String::new();
    said.read_to_string(&mut rest).expect("it says text");
    lines.extend(rest.lines().map(|line| format!("{line}\n")));
    lines
}

/// What is known is written before the last index was read.
#[test]
fn a_run_that_is_killed_has_told_what_it_knew() {
    let folder = folder_with_pipe("stream_killed");
    put(
        &folder,
        "list",
        format!("{}\n\n{}\n{}\n", key(1), key(2), key(9)),
    );
    let find = [
        "index",
        "find",
        "--index",
        "index",
        "--index",
        "pipe",
        "--worklist",
        "list",
    ];
    let found = |number: u32, row| {
        let (size, offset) = (7 + 3 * number, 5 * number);
        format!(
            "found\t{}\t{size}\t-\t{offset}\tindex\t{row}\n",
            key(number)
        )
    };
    let lines = [found(1, 1), "refused\t\t2\n".to_string(), found(2, 3)];
    assert_eq!(said_before_the_end(&folder, &find, 3), lines);
}

/// What root file and encoding file decide is written before any index was read.
#[test]
fn resolve_answers_before_the_indexes() {
    let folder = folder_with_pipe("stream_resolve");
    put(&folder, "list", "FileDataID\n5\n00417\n9001\n417\n");
    let [root, encoding] = ["root-v1", "encoding"].map(|name| sample().join(name));
    let [root, encoding] = [&root, &encoding].map(|path| path.to_str().expect("it is text"));
    let files = [
        "resolve",
        "--root",
        root,
        "--encoding",
        encoding,
        "--index",
        "pipe",
    ];
    let resolve = [&files[..], &["--worklist", "list"]].concat();
    let lines = [
        "absent\t5\troot\t2\n",
        "refused\t00417\t3\n",
        "absent\t9001\tencoding\t4\n",
    ];
    assert_eq!(said_before_the_end(&folder, &resolve, 3), lines);
}

#[test]
fn a_closed_pipe_ends_quietly() {
    let folder = folder("stream_closed");
    put(&folder, "index", index(W4, 3, 0));
    put(&folder, "list", format!("{}\n", key(1)).repeat(20_000));
    let mut command = dwarnizza(["index", "find", "--index", "index", "--worklist", "list"]);
    let command = command.current_dir(&folder).stdout(Stdio::piped());
    let mut child = command.stderr(Stdio::piped()).spawn().expect("it starts");
    drop(child.stdout.take());
    let output = child.wait_with_output().expect("it ends");
    let errors = String::from_utf8_lossy(&output.stderr);
    assert_eq!((output.status.code(), &errors[..]), (Some(3), ""));
}

/// On a terminal every phase has its words.
#[test]
fn progress() {
    let program = env!("CARGO_BIN_EXE_dwarnizza");
    let mut script = Command::new("script");
    let resolve = "resolve --root root-v1 --encoding encoding --index archives";
    let run = format!("'{program}' {resolve} --worklist worklist.csv --column 2");
    script.args(["-qec", &run, "/dev/null"]);
    let Ok(output) = script.current_dir(sample()).stdin(Stdio::null()).output() else {
        return; // no terminal can be had here
    };
    let shown = String::from_utf8_lossy(&output.stdout).into_owned();
    for phase in [
        "reading worklist.csv",
        "reading the root file",
        "searching the root file",
        "reading the encoding file",
        "searching the encoding file",
        "0 of 3 indexes",
    ] {
        assert!(
            shown.contains(&format!("{phase}\r\u{1b}[K")),
            "{phase}: {shown:?}"
        );
    }
}
