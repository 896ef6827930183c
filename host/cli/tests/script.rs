//! The script `./dwarnizza`, in a copy of the repository's shape with stand-ins for `rt` and
//! `cargo`.

mod run;

use std::fs;
use std::os::unix::fs::{PermissionsExt, symlink};
use std::path::{Path, PathBuf};
use std::process::{Command, Output};
use std::time::{Duration, SystemTime};

use run::{folder, output};

/// The programs that the script calls, but for `rt` and `cargo`.
const PROGRAMS: [&str; 16] = [
    "awk", "basename", "bash", "cat", "chmod", "cp", "dirname", "env", "find", "mkdir", "mv",
    "readlink", "rm", "tail", "tee", "touch",
];

/// Proves the crate in whose folder it is called, and says so between other lines.
const RT: &str = r#"#!/usr/bin/env bash
name=$(basename "$PWD")
echo "rt $* $name" >>"$CALLS"
case $1 in
check) echo "fn $name::one: proved"; echo "logic=proved functions=1" ;;
lib) echo "rt: one proved (unchanged since it was last proved)"; mkdir -p out; echo new >out/libdwarnizza.a; [ ! -e ../../fails ] ;;
esac
"#;

/// Builds a tool that says its arguments.
const CARGO: &str = r#"#!/usr/bin/env bash
echo "cargo" >>"$CALLS"
while [ "$1" != --target-dir ]; do shift; done
mkdir -p "$2/release"
printf '#!/bin/sh\necho "tool $*"\n' >"$2/release/dwarnizza"
chmod +x "$2/release/dwarnizza"
"#;

struct Repository {
    top: PathBuf,
}

impl Repository {
    /// Nothing is built yet.
    fn new(test: &str) -> Self {
        let top = folder(test);
        let script = Path::new(env!("CARGO_MANIFEST_DIR")).join("../../dwarnizza");
        fs::copy(script, top.join("dwarnizza")).expect("the script is there");
        for folder in [
            "crates/one",
            "crates/two",
            "crates/dwarnizza",
            "host/cli",
            "host/dwarnizza",
            "host/sys",
            "bin",
        ] {
            fs::create_dir_all(top.join(folder)).expect("a folder can be made");
        }
        for file in [
            "host/Cargo.toml",
            "host/Cargo.lock",
            "host/cli/main.rs",
            "crates/one/lib.rt",
        ] {
            fs::write(top.join(file), "").expect("a file can be written");
        }
        let crates = "# NAME: DEP\none:\ntwo: one io\nother: one\ndwarnizza staticlib: two\n";
        fs::write(top.join("crates.txt"), crates).expect("a file can be written");
        for program in PROGRAMS {
            let found = ["/usr/bin", "/bin"].map(|folder| Path::new(folder).join(program));
            let found = found
                .iter()
                .find(|path| path.exists())
                .expect("it is installed");
            symlink(found, top.join("bin").join(program)).expect("a link can be made");
        }
        let repository = Self { top };
        repository.program("rt", RT);
        repository.program("cargo", CARGO);
        repository
    }

    fn program(&self, name: &str, text: &str) {
        let path = self.top.join("bin").join(name);
        fs::write(&path, text).expect("a file can be written");
        fs::set_permissions(&path, fs::Permissions::from_mode(0o755)).expect("it may run");
    }

    /// Runs the script under this path with the word `word`.
    fn run(&self, script: &str, target: Option<&str>) -> Output {
        let mut command = Command::new(self.top.join(script));
        command
            .arg("word")
            .env("PATH", self.top.join("bin"))
            .env("CALLS", self.top.join("calls"))
            .env_remove("CARGO_TARGET_DIR");
        if let Some(target) = target {
            command.env("CARGO_TARGET_DIR", self.top.join(target));
        }
        let _ = fs::remove_file(self.top.join("calls"));
        output(command, Path::new("/"), b"")
    }

    /// What the stand-ins were told since the script began.
    fn calls(&self) -> String {
        fs::read_to_string(self.top.join("calls")).unwrap_or_default()
    }

    /// Makes a file newer than all.
    fn change(&self, file: &str) {
        let file = fs::File::options().append(true).open(self.top.join(file));
        let later = SystemTime::now() + Duration::from_secs(5);
        file.expect("it is there")
            .set_modified(later)
            .expect("it takes a time");
    }
}

fn text(bytes: &[u8]) -> String {
    String::from_utf8_lossy(bytes).into_owned()
}

const ALL: &str = "rt check one\nrt check two\nrt lib dwarnizza\ncargo\n";

#[test]
fn what_is_missing_is_built_once_with_short_words() {
    let repository = Repository::new("script_missing");
    let first = repository.run("dwarnizza", None);
    assert_eq!(text(&first.stdout), "tool word\n");
    assert_eq!(repository.calls(), ALL);
    let said = text(&first.stderr);
    assert!(
        said.contains("3 crates, which may take half an hour"),
        "{said}"
    );
    assert!(said.contains("crate 1 of 3: one\n"), "{said}");
    assert_eq!(said.matches("crate ").count(), 3, "{said}");
    assert!(said.contains("crate 3 of 3: dwarnizza\n"), "{said}");
    assert!(!said.contains("fn one::one"), "{said}");

    let second = repository.run("dwarnizza", None);
    assert_eq!(text(&second.stdout), "tool word\n");
    assert_eq!(repository.calls(), "");
    assert!(second.stderr.is_empty());
}

#[test]
fn what_is_older_than_its_sources_is_built() {
    let repository = Repository::new("script_older");
    repository.run("dwarnizza", None);
    repository.change("host/cli/main.rs");
    assert!(repository.run("dwarnizza", None).status.success());
    assert_eq!(repository.calls(), "cargo\n");
    repository.change("crates/one/lib.rt");
    assert!(repository.run("dwarnizza", None).status.success());
    assert_eq!(repository.calls(), ALL);
}

#[test]
fn it_runs_through_a_link_and_with_another_target_folder() {
    let repository = Repository::new("script_link");
    symlink("../dwarnizza", repository.top.join("bin/link")).expect("a link can be made");
    symlink("link", repository.top.join("bin/link_to_link")).expect("a link can be made");
    let linked = repository.run("bin/link_to_link", None);
    assert_eq!(text(&linked.stdout), "tool word\n");
    assert!(
        repository
            .top
            .join("host/target/release/dwarnizza")
            .exists()
    );

    let elsewhere = repository.run("dwarnizza", Some("elsewhere"));
    assert_eq!(text(&elsewhere.stdout), "tool word\n");
    assert_eq!(repository.calls(), "cargo\n");
    assert!(repository.top.join("elsewhere/release/dwarnizza").exists());
}

#[test]
fn a_tool_of_another_repository_is_not_taken() {
    let (one, other) = (
        Repository::new("script_one"),
        Repository::new("script_other"),
    );
    let shared = one.top.join("shared");
    let shared = shared.to_str().expect("its name is text");
    for repository in [&one, &other, &one] {
        assert!(repository.run("dwarnizza", Some(shared)).status.success());
        assert!(repository.calls().ends_with("cargo\n"));
    }
    assert!(one.run("dwarnizza", Some(shared)).status.success());
    assert_eq!(one.calls(), "");
}

#[test]
fn it_says_what_is_missing() {
    let repository = Repository::new("script_tools");
    for (program, what) in [("cargo", "cargo is missing"), ("rt", "rt is missing")] {
        fs::remove_file(repository.top.join("bin").join(program)).expect("it was there");
        let _ = fs::remove_dir_all(repository.top.join("target"));
        let said = repository.run("dwarnizza", None);
        assert_eq!(said.status.code(), Some(69));
        assert!(text(&said.stderr).contains(what), "{}", text(&said.stderr));
        assert!(said.stdout.is_empty());
    }
}

#[test]
fn a_library_that_is_not_proved_is_not_used() {
    let repository = Repository::new("script_fails");
    fs::write(repository.top.join("fails"), "").expect("a file can be written");
    for _ in 0..2 {
        let said = repository.run("dwarnizza", None);
        assert_eq!(said.status.code(), Some(69));
        assert!(text(&said.stderr).contains("target/dwarnizza.log"));
        assert!(said.stdout.is_empty());
    }
}

/// A closed standard output is no success, and nothing is built for it.
#[test]
fn a_closed_standard_output() {
    let repository = Repository::new("script_closed");
    let mut shell = Command::new("/bin/sh");
    shell
        .args(["-c", "exec \"$0\" word >&-"])
        .arg(repository.top.join("dwarnizza"))
        .env("PATH", repository.top.join("bin"))
        .env("CALLS", repository.top.join("calls"));
    let closed = output(shell, Path::new("/"), b"");
    assert_eq!(closed.status.code(), Some(3));
    let words = "dwarnizza: cannot write standard output: it is closed\n";
    assert_eq!(text(&closed.stderr), words);
    assert_eq!(repository.calls(), "");
}
