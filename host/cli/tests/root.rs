//! `dwarnizza root`, on the sample build.

mod run;

use std::fs;

use run::{expect, folder, sample};

const ENGLISH: &str = "6667801fc2955e23a72749749811a86d";
const GERMAN: &str = "4c0ca7f12a7dce44aa1036f709c2dd3f";

#[test]
fn check() {
    let arguments = ["root", "check", "root-v1", "root-short", "root-v2"];
    let lines = "ok\troot-v1\nok\troot-short\nok\troot-v2\n";
    expect(&sample(), &arguments, 0, lines, "");
    for (name, words) in [
        (
            "root-v1.blte",
            "it is a BLTE envelope and not a root file itself",
        ),
        ("encoding", "it is an encoding file and not a root file"),
    ] {
        let refused = format!("refused\t{name}\t40\t0\n");
        expect(&sample(), &["root", "check", name], 2, &refused, words);
    }
}

#[test]
fn a_cut_file_is_refused_at_its_block() {
    let folder = folder("root_cut");
    let bytes = fs::read(sample().join("root-v2")).expect("it is there");
    fs::write(folder.join("cut"), &bytes[..bytes.len() - 1]).expect("a file can be written");
    for arguments in [
        &["root", "check", "cut"][..],
        &["root", "find", "cut", "417"],
    ] {
        let said = expect(&folder, arguments, 2, "", "block cut (block at byte ");
        assert!(said.starts_with("refused\tcut\t40\t"), "{said}");
        assert!(said.contains("cut in download"), "{said}");
    }
}

#[test]
fn find_in_every_layout() {
    for (name, place) in [("root-v1", 220), ("root-short", 232), ("root-v2", 249)] {
        let found = format!("found\t417\t{ENGLISH}\t{place}\t-\nabsent\t5\t-\n");
        expect(
            &sample(),
            &["root", "find", name, "417", "5"],
            1,
            &found,
            "",
        );
        for locale in [
            "--locale=deDE",
            "--locale=0x20",
            "--locale=32",
            "--locale=frFR,deDE",
        ] {
            let said = expect(&sample(), &["root", "find", locale, name, "417"], 0, "", "");
            assert!(
                said.starts_with(&format!("found\t417\t{GERMAN}\t")),
                "{said}"
            );
        }
        for number in ["2147483647", "4294967295"] {
            let said = expect(&sample(), &["root", "find", name, number], 0, "", "");
            assert!(said.starts_with("found\t"), "{said}");
            let absent = format!("absent\t{number}\t-\n");
            let arguments = ["root", "find", "--without", "0x80", name, number];
            expect(&sample(), &arguments, 1, &absent, "");
        }
    }
}

#[test]
fn what_is_no_file_number_is_refused_with_the_words_why() {
    for (text, words) in [
        (
            "00417",
            "leading zero: a file number has none; is it a key?",
        ),
        ("417.0", "\".\" is no digit; it looks like a fraction"),
        ("4294967296", "above 4294967295"),
        (ENGLISH, "\"f\" is no digit; is it a key?"),
        (
            "Interface/Icons/INV_Sample_01.blp",
            "\"I\" is no digit; is it a path? --path seeks paths",
        ),
    ] {
        let refused = format!("refused\t{text}\t-\n");
        expect(
            &sample(),
            &["root", "find", "root-v1", text],
            2,
            &refused,
            words,
        );
    }
}

#[test]
fn wrong_usage() {
    for (arguments, words) in [
        (&["root", "find", "root-v1"][..], "a file number is missing"),
        (
            &["root", "find", "--locale", "english", "root-v1", "417"],
            "english is no locale",
        ),
        (
            &["root", "find", "--without", "0xyz", "root-v1", "417"],
            "--without wants flags",
        ),
        (
            &["root", "find", "--locale"],
            "--locale wants LOCALES after it",
        ),
    ] {
        expect(&sample(), arguments, 64, "", words);
    }
}
