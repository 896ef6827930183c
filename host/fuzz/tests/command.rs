//! The command, as it is run.

use std::process::{Command, Output};

fn fuzz(arguments: &[&str]) -> Output {
    let mut command = Command::new(env!("CARGO_BIN_EXE_fuzz"));
    command.args(arguments).output().expect("the fuzzer starts")
}

fn text(bytes: &[u8]) -> &str {
    str::from_utf8(bytes).expect("the fuzzer prints text")
}

#[test]
fn a_run_says_what_it_did() {
    let output = fuzz(&["--cases", "300", "--seed", "5"]);
    assert_eq!(output.status.code(), Some(0));
    assert_eq!(text(&output.stderr), "");
    let printed = text(&output.stdout);
    assert!(printed.starts_with("300 cases of seed 5: no difference.\n"));
    assert!(printed.contains("| `dwarnizza_index_check` | "));
    assert!(printed.contains("| No. | calls |"));
}

#[test]
fn the_same_on_any_number_of_threads() {
    let on = |threads| fuzz(&["--cases", "2000", "--threads", threads]).stdout;
    assert_eq!(on("1"), on("4"));
}

#[test]
fn one_case_alone() {
    let output = fuzz(&["--seed", "5", "--case", "123456"]);
    assert_eq!(output.status.code(), Some(0));
    let printed = text(&output.stdout);
    assert!(printed.starts_with("Case 123456 of seed 5: no difference.\n"));
}

#[test]
fn wrong_usage() {
    for (arguments, words) in [
        (&["--cases"][..], "--cases has no value"),
        (&["--cases", "many"], "--cases: \"many\" is no number"),
        (&["--threads", "0"], "--threads: at least 1"),
        (&["fast"], "there is no option \"fast\""),
    ] {
        let output = fuzz(arguments);
        assert_eq!(output.status.code(), Some(64), "{arguments:?}");
        assert_eq!(text(&output.stdout), "");
        assert!(text(&output.stderr).starts_with(&format!("fuzz: {words}\nusage: ")));
    }
}

#[test]
fn help() {
    let output = fuzz(&["--help"]);
    assert_eq!(output.status.code(), Some(0));
    assert!(text(&output.stdout).starts_with("usage: fuzz "));
}
