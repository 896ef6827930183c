//! Output files: there whole or not at all.

mod run;

use std::fs;
use std::path::Path;
use std::process::Command;

use forge::counted::{W4, index};
use run::{folder, held, holds, put, run};

/// An existing file stays unless `--force`, and no other file is left.
#[test]
fn output_files() {
    let folder = folder("index_output");
    put(&folder, "index", index(W4, 2, 0));
    put(&folder, "old", "old");
    let list = ["index", "list", "index", "-o", "old"];
    run(&folder, list).expect(
        3,
        "failed\told\n",
        &["cannot write old: it is there already; --force replaces it"],
    );
    holds(&folder, "old", b"old");
    run(&folder, list.iter().chain(&["--force"])).expect(0, "", &[]);
    assert!(
        fs::read(folder.join("old"))
            .expect("it is there")
            .starts_with(b"index\tversion=1")
    );
    run(&folder, ["index", "list", "index", "-o", "no/such/folder"]).expect(
        3,
        "failed\tno/such/folder\n",
        &["cannot write no/such/folder: "],
    );
    run(&folder, ["index", "list", "index", "-o", ".", "--force"]).expect(
        3,
        "failed\t.\n",
        &["cannot write .: "],
    );
    run(&folder, ["index", "list", "index", "-o", "new"]).expect(0, "", &[]);
    assert_eq!(held(&folder), ["index", "new", "old"]);
}

/// Runs the program where files may have so few blocks: it is killed by a signal at the first write
/// above them, or that write fails where the signal is ignored.
fn limited(folder: &Path, before: &str) -> (Option<i32>, String) {
    let program = env!("CARGO_BIN_EXE_dwarnizza");
    let line = format!("{before} ulimit -f 8; exec '{program}' index list index -o out");
    let mut shell = Command::new("sh");
    let output = shell.args(["-c", &line]).current_dir(folder).output();
    let output = output.expect("the shell runs");
    let words = String::from_utf8_lossy(&output.stderr).into_owned();
    (output.status.code(), words)
}

/// A killed run leaves no file under the final name.
#[test]
fn a_killed_run_leaves_no_file() {
    let folder = folder("index_killed");
    put(&folder, "index", index(W4, 20_000, 0));
    assert_eq!(limited(&folder, "").0, None);
    assert!(!folder.join("out").exists());
}

/// A run that cannot write leaves no file at all.
#[test]
fn a_failed_run_leaves_nothing() {
    let folder = folder("index_failed");
    put(&folder, "index", index(W4, 20_000, 0));
    let (status, words) = limited(&folder, "trap '' XFSZ;");
    assert!(
        words.starts_with("dwarnizza: cannot write out: "),
        "{words}"
    );
    assert_eq!(status, Some(3));
    assert_eq!(held(&folder), ["index"]);
}

/// What is no file is never replaced.
#[test]
fn devices_stay() {
    let folder = folder("index_device");
    put(&folder, "index", index(W4, 2, 0));
    std::os::unix::fs::symlink("/dev/null", folder.join("null")).expect("it can be linked");
    run(&folder, ["index", "list", "index", "-o", "null", "--force"]).expect(
        3,
        "failed\tnull\n",
        &["it is no file"],
    );
    assert!(folder.join("null").is_symlink());
}
