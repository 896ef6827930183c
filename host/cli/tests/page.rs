//! docs/TOOL.md names the fields of every answer: the objects that commands print have these, in
//! this order.

mod run;

use std::collections::{BTreeMap, BTreeSet};
use std::fs;
use std::path::{Path, PathBuf};

use forge::counted;
use run::{copy_tree, folder, put, run, sample};

/// The answers of the page, by command and word, each with its fields.
type Answers = BTreeMap<(String, String), Vec<String>>;

/// What stands between backticks.
fn quoted(text: &str) -> Vec<String> {
    text.split('`')
        .skip(1)
        .step_by(2)
        .map(str::to_string)
        .collect()
}

/// The answers that the page names.
fn documented() -> Answers {
    let page = Path::new(env!("CARGO_MANIFEST_DIR")).join("../../docs/TOOL.md");
    let page = fs::read_to_string(page).expect("the page is there");
    let mut answers = Answers::new();
    for row in page.lines().filter(|line| line.starts_with("| `")) {
        let cells: Vec<_> = row.trim_matches('|').split('|').map(quoted).collect();
        let (command, word, fields) = match &cells[..] {
            [command, word, fields] => (&command[0], word[0].as_str(), fields),
            [command, fields] => (&command[0], "summary", fields),
            _ => panic!("{row} has other cells"),
        };
        let before = answers.insert((command.clone(), word.to_string()), fields.clone());
        assert_eq!(before, None, "{row} stands twice");
    }
    answers
}

/// The word of an object, and the names of its fields but for the words of a failure.
fn object(line: &str) -> (String, Vec<String>) {
    let inner = line
        .strip_prefix("{\"answer\":\"")
        .expect("it is an answer");
    let (word, fields) = inner.split_once('"').expect("its word is closed");
    // A name stands after a comma and before a colon; the values of these tests have neither.
    let fields = fields.split(",\"").skip(1);
    let names = fields.map(|field| field.split_once("\":").expect("it has a name").0);
    let names = names
        .take_while(|name| *name != "words")
        .map(str::to_string);
    (word.to_string(), names.collect())
}

/// A copy of the sample build, with what it takes to get every answer.
fn build() -> PathBuf {
    let folder = folder("page");
    copy_tree(&sample(), &folder);
    put(&folder, "old", counted::index(counted::W4, 2, 0));
    put(&folder, "more", counted::index(counted::W4, 3, 0));
    put(&folder, "changed", counted::index(counted::W4, 3, 1));
    // The archive of the index `old`, which is cut.
    put(&folder, "short/old", "x");
    put(&folder, "list", "00000000000000000000000000000000  old\n");
    folder
}

/// Commands, and arguments of theirs that give every answer.
const RUNS: [(&str, &str); 29] = [
    (
        "resolve",
        "resolve --root root-v1 --encoding encoding --index archives 417 9002 00417",
    ),
    (
        "resolve",
        "resolve --root root-v1 --encoding encoding --index archives --worklist worklist.tsv --column 1",
    ),
    (
        "resolve",
        "resolve --root root-v1 --encoding encoding --index encoding 417",
    ),
    (
        "resolve --path",
        r"resolve --path --root root-v1 --encoding encoding --index archives Interface\Icons\INV_Sample_01.blp a/b.c ",
    ),
    (
        "resolve --path",
        "resolve --path --root root-v1 --encoding encoding --index encoding --worklist paths.csv --column 2",
    ),
    (
        "index check",
        "index check -r archives group --archives archives --names",
    ),
    ("index check", "index check old --archives short --names"),
    (
        "index find",
        "index find --index archives ae5da97c10327bc86eb33511688654da 00000000000000000000000000000000 00417",
    ),
    (
        "index find",
        "index find --index archives --worklist worklist.csv --column 3",
    ),
    (
        "index find",
        "index find --index nothing ae5da97c10327bc86eb33511688654da",
    ),
    ("index list", "index list old"),
    ("index write", "index write text -o written"),
    ("index info", "index info old"),
    ("index diff", "index diff old more"),
    ("index diff", "index diff changed old"),
    ("encoding check", "encoding check encoding"),
    (
        "encoding find",
        "encoding find encoding cb78b02b638a38bada59a1f7ff476929 00000000000000000000000000000000 00417",
    ),
    (
        "encoding find",
        "encoding find encoding --worklist worklist.csv --column 3",
    ),
    (
        "encoding find --encoding-keys",
        "encoding find --encoding-keys encoding ae5da97c10327bc86eb33511688654da",
    ),
    ("encoding spec", "encoding spec encoding 0 x"),
    ("root check", "root check root-v1"),
    ("root find", "root find root-v1 417 5 00417"),
    (
        "root find",
        "root find root-v1 --worklist worklist.csv --column 2",
    ),
    (
        "root find --path",
        r"root find --path root-v1 Interface\Icons\INV_Sample_01.blp a/b.c ",
    ),
    (
        "root find --path",
        "root find --path root-v1 --worklist paths.csv --column 2",
    ),
    ("blte open", "blte open encoding.blte -o content"),
    ("blte key", "blte key encoding.blte"),
    ("md5", "md5 encoding"),
    ("md5 -c", "md5 -c list sums"),
];

/// Whether it is one of the two answers that every command gives which takes files.
fn is_of_a_file(word: &str, fields: &[String]) -> bool {
    match word {
        "refused" => fields == ["file", "number", "place"],
        "failed" => fields == ["file"],
        _ => false,
    }
}

#[test]
fn every_answer_has_its_fields() {
    let folder = build();
    let sums = run(&folder, ["md5", "encoding"]).lines;
    put(&folder, "sums", sums);
    run(&folder, ["index", "list", "old", "-o", "text"]).expect(0, "", &[]);
    let documented = documented();
    let mut met = BTreeSet::new();
    for (command, arguments) in RUNS {
        let said = run(&folder, arguments.split(' ').chain(["--json"]));
        for line in said.lines.lines() {
            let (word, fields) = object(line);
            if is_of_a_file(&word, &fields) {
                continue;
            }
            let answer = (command.to_string(), word);
            assert_eq!(documented.get(&answer), Some(&fields), "{answer:?} {line}");
            met.insert(answer);
        }
    }
    let mut documented = documented.keys();
    let missed = documented.find(|answer| !met.contains(*answer));
    assert_eq!(missed, None, "no run gives this answer");
}
