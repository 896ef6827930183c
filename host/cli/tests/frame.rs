//! What all commands share: help, options, exit status, streams, names.

mod run;

use std::ffi::OsStr;
use std::fs::{self, File};
use std::os::unix::ffi::OsStrExt;
use std::process::{Command, Stdio};

use forge::counted;
use run::{dwarnizza, folder, put, run, run_with};

/// The names of all commands, by the usage.
fn commands() -> Vec<String> {
    let usage = run(&folder("frame_usage"), ["--help"]).lines;
    let lines = usage
        .lines()
        .filter(|line| line.starts_with("  ") && !line.starts_with("   "));
    let word = |word: &&str| {
        word.chars()
            .all(|letter| letter.is_ascii_lowercase() || letter.is_ascii_digit())
    };
    let name = |line: &str| {
        line.split_whitespace()
            .take_while(word)
            .collect::<Vec<_>>()
            .join(" ")
    };
    lines.map(name).collect()
}

#[test]
fn help_of_every_command() {
    let folder = folder("frame_help");
    let commands = commands();
    for wanted in ["check", "list", "find", "write", "info", "diff"] {
        assert!(
            commands.contains(&format!("index {wanted}")),
            "{commands:?}"
        );
    }
    for command in &commands {
        for option in ["--help", "-h"] {
            let help = run(&folder, command.split(' ').chain([option]));
            assert_eq!((help.status, help.errors.as_str()), (0, ""), "{command}");
            assert!(
                help.lines
                    .starts_with(&format!("usage: dwarnizza {command}")),
                "{command}"
            );
            for said in ["--json", "--help, -h", "--version"] {
                assert!(help.lines.contains(said), "{command}");
            }
        }
        let version = run(&folder, command.split(' ').chain(["--version"]));
        version.expect(
            0,
            concat!("dwarnizza ", env!("CARGO_PKG_VERSION"), "\n"),
            &[],
        );
    }
}

#[test]
fn help_of_the_program_and_of_a_group() {
    let folder = folder("frame_groups");
    assert_eq!(run(&folder, ["-h"]).lines, run(&folder, ["--help"]).lines);
    for status in ["0 where", "1 where", "2 where", "3 where", "64"] {
        assert!(run(&folder, ["--help"]).lines.contains(status), "{status}");
    }
    let group = run(&folder, ["index", "--help"]);
    assert_eq!(group.status, 0);
    assert!(group.lines.contains("index diff OLD NEW") && !group.lines.contains("md5"));
    assert_eq!(
        run(&folder, ["--version"]).lines,
        run(&folder, ["index", "--version"]).lines
    );
}

/// Wrong arguments, and what is said of them.
const WRONG: [(&[&str], &str); 19] = [
    (&[], "a command is missing"),
    (&["check"], "there is no command check"),
    (&["lookup"], "there is no command lookup"),
    (&["index"], "index: a second word is missing"),
    (&["index", "lookup"], "there is no command index lookup"),
    (&["index", "check"], "a file is missing"),
    (&["index", "check", "-x", "a"], "there is no option -x"),
    (
        &["index", "check", "--json=1", "a"],
        "--json takes no value",
    ),
    (
        &["index", "check", "--names", "--names", "a"],
        "--names is given twice",
    ),
    (
        &["index", "check", "a", "--archives"],
        "--archives wants DIR after it",
    ),
    (&["index", "list", "a", "b"], "one operand too many: b"),
    (&["index", "write", "a"], "-o FILE is missing"),
    (
        &["index", "write", "a", "-o", "b", "--key", "16"],
        "--key goes with --raw",
    ),
    (
        &["index", "write", "a", "-o", "b", "--raw", "--key=x"],
        "--index-version is missing",
    ),
    (&["index", "find", "--index", "a"], "a key is missing"),
    (&["index", "find", "00"], "an index is missing"),
    (
        &["index", "find", "--column", "1", "00"],
        "--column wants --worklist",
    ),
    (&["index", "diff", "a"], "two indexes are wanted"),
    (&["index", "check", "."], ". is a folder; -r"),
];

#[test]
fn wrong_usage() {
    let folder = folder("frame_wrong");
    for (arguments, words) in WRONG {
        run(&folder, arguments).expect(64, "", &[words, "dwarnizza --help"]);
    }
}

/// After `--` all are operands; `-` is standard input; a value may be joined to its option.
#[test]
fn operands() {
    let folder = folder("frame_operands");
    let index = counted::index(counted::W4, 3, 0);
    put(&folder, "--json", &index);
    run(&folder, ["index", "check", "--", "--json"]).expect(0, "ok\t--json\t1\t4\t16\t3\t1\n", &[]);
    run_with(&folder, ["index", "check", "-"], &index).expect(0, "ok\t-\t1\t4\t16\t3\t1\n", &[]);
    let key = counted::key(1);
    let found = format!("found\t{key}\t10\t-\t5\t--json\t-\n");
    run(&folder, ["index", "find", "--index=--json", &key]).expect(0, &found, &[]);
    run(&folder, ["index", "find", "--index", "--json", &key]).expect(0, &found, &[]);
}

/// The worst status counts.
#[test]
fn worst_status() {
    let folder = folder("frame_worst");
    put(&folder, "good", counted::index(counted::W4, 3, 0));
    put(&folder, "short", "short");
    let check = |names: &[&str]| run(&folder, ["index", "check"].iter().chain(names)).status;
    assert_eq!(check(&["good", "good"]), 0);
    assert_eq!(check(&["short", "good"]), 2);
    assert_eq!(check(&["missing", "short", "good"]), 3);
    let find = |key: &str| run(&folder, ["index", "find", "--index", "good", key]).status;
    assert_eq!(find(&counted::key(2)), 0);
    assert_eq!(find(&counted::key(3)), 1);
    assert_eq!(find("00417"), 2);
}

/// A full disk, and a stream that is open for reading only.
#[test]
fn standard_output_that_fails() {
    let folder = folder("frame_full");
    put(&folder, "index", counted::index(counted::W4, 3000, 0));
    for arguments in [
        &["index", "check", "index"][..],
        &["index", "list", "index"],
        &["index", "info", "index"],
        &["--help"],
        &["index", "check", "--help"],
        &["--version"],
    ] {
        for stream in [File::create("/dev/full"), File::open("/dev/null")] {
            let mut command = dwarnizza(arguments);
            let stream = stream.expect("the device opens");
            let output = command
                .current_dir(&folder)
                .stdout(stream)
                .output()
                .expect("it runs");
            let words = String::from_utf8_lossy(&output.stderr).into_owned();
            assert_eq!(output.status.code(), Some(3), "{arguments:?} {words}");
            let said = words.matches("cannot write standard output").count();
            assert_eq!((said, words.lines().count()), (1, 1), "{words}");
        }
    }
}

#[test]
fn standard_error_that_fails() {
    let folder = folder("frame_errors");
    let status = |arguments: &[&str]| {
        let full = File::create("/dev/full").expect("the device opens");
        let mut command = dwarnizza(arguments);
        let command = command
            .current_dir(&folder)
            .stderr(full)
            .stdout(Stdio::null());
        command.status().expect("it runs").code()
    };
    put(&folder, "short", "short");
    assert_eq!(status(&["index", "check", "short"]), Some(3));
    assert_eq!(status(&["index", "check"]), Some(64));
}

#[test]
fn a_closed_pipe_ends_quietly() {
    let folder = folder("frame_pipe");
    put(&folder, "index", counted::index(counted::W4, 20_000, 0));
    let mut command = dwarnizza(["index", "list", "index"]);
    let command = command
        .current_dir(&folder)
        .stdout(Stdio::piped())
        .stderr(Stdio::piped());
    let mut child = command.spawn().expect("it starts");
    drop(child.stdout.take());
    let output = child.wait_with_output().expect("it ends");
    assert!(output.stderr.is_empty());
    assert_eq!(output.status.code(), Some(3));
}

/// Line feeds, escapes and bytes that are no UTF-8, in lines, words and JSON alike.
#[test]
fn names_are_escaped() {
    let folder = folder("frame_names");
    let names: [(&[u8], &str); 5] = [
        (b"line\nfeed", r"line\nfeed"),
        (b"tab\tand \\", r"tab\tand \\"),
        (b"\x1b[31mred", r"\x1b[31mred"),
        (b"no \xff\xfe text", r"no \xff\xfe text"),
        ("\u{202e}turned é".as_bytes(), r"\xe2\x80\xaeturned é"),
    ];
    for (name, shown) in names {
        let name = OsStr::from_bytes(name);
        put(&folder, name, "short");
        let check = [OsStr::new("index"), OsStr::new("check"), name];
        let words = format!("dwarnizza: {shown}: refused 1");
        run(&folder, check).expect(2, &format!("refused\t{shown}\t1\t0\n"), &[&words]);
        let json = run(&folder, check.into_iter().chain([OsStr::new("--json")])).lines;
        let quoted = shown.replace('\\', r"\\");
        assert!(
            json.starts_with(&format!(r#"{{"answer":"refused","file":"{quoted}","#)),
            "{json}"
        );
        fs::remove_file(folder.join(name)).expect("it goes");
        let words = format!("dwarnizza: cannot read {shown}: ");
        run(&folder, check).expect(3, &format!("failed\t{shown}\n"), &[&words]);
    }
}

/// Progress is for a terminal.
#[test]
fn progress() {
    let folder = folder("frame_progress");
    for number in 0..5 {
        put(
            &folder,
            format!("{number}.index"),
            counted::index(counted::W4, 3, 0),
        );
    }
    let piped = run(&folder, ["index", "check", "-r", "."]);
    assert_eq!(
        piped.errors,
        "dwarnizza: 5 indexes: 5 ok, 0 refused, 0 not read\n"
    );
    let program = env!("CARGO_BIN_EXE_dwarnizza");
    let mut script = Command::new("script");
    script.args([
        "-qec",
        &format!("'{program}' index check -r ."),
        "/dev/null",
    ]);
    let Ok(output) = script.current_dir(&folder).stdin(Stdio::null()).output() else {
        return; // no terminal can be had here
    };
    let shown = String::from_utf8_lossy(&output.stdout).into_owned();
    assert!(shown.contains("of 5 indexes\r\u{1b}[K"), "{shown:?}");
}
