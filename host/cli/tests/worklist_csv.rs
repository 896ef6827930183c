//! Lists that Python's csv module wrote in all its dialects: the tool answers every row once, by what
//! was meant, and its counts add up.

mod run;
mod written;

use std::path::Path;

use forge::counted::{W4, index, key};
use run::{folder, put, run};
use written::Written;

/// How many lists are answered, and how many rows each has at most.
const LISTS: usize = 600;
const ROWS: usize = 60;

/// How many of the keys that lists may have are in the index.
const INDEXED: u32 = 3;
const KEYS: u32 = 6;

#[test]
fn every_row_is_answered_once() {
    let folder = folder("worklist_csv");
    put(&folder, "index", index(W4, INDEXED, 0));
    let Some(lists) = written::lists("keys", LISTS, ROWS, 12) else {
        return;
    };
    for (number, list) in lists.iter().enumerate() {
        compare(&folder, list, number % 2 == 1);
    }
}

/// The answers of a list, and the summary.
fn answered(folder: &Path, list: &Written, header: bool) -> (Vec<String>, String) {
    put(folder, "list", &list.text);
    let separator = char::from(list.separator).to_string();
    let column = (list.column + 1).to_string();
    let options = ["--column", &column, "--separator", &separator];
    let find = [
        "index",
        "find",
        "--index",
        "index",
        "--json",
        "--worklist",
        "list",
    ];
    let header: &[&str] = if header { &["--header"] } else { &[] };
    let said = run(folder, find.iter().chain(&options).chain(header)).lines;
    let mut lines: Vec<_> = said.lines().map(str::to_string).collect();
    let summary = lines.pop().expect("something is said");
    (lines, summary)
}

fn compare(folder: &Path, list: &Written, header: bool) {
    let (lines, summary) = answered(folder, list, header);
    let rows = list.rows.len();
    if summary.contains("there is no other row") {
        assert_eq!((rows, lines.len()), (1, 0));
        return;
    }
    let first = usize::from(summary.contains("\"header_row\":1,"));
    assert!(first == 1 || !header, "{summary}");
    assert_eq!(lines.len(), rows - first, "{summary}");
    let mut counts = [0; 3];
    for (row, line) in (first..).zip(&lines) {
        let (word, text) = meant(list.content(row));
        counts[word as usize] += 1;
        compare_line(line, row + 1, word, text);
    }
    let [found, absent, refused] = counts;
    assert_eq!(rows, found + absent + refused + first);
    let begins = format!("{{\"answer\":\"summary\",\"rows\":{rows},");
    let counts =
        format!(",\"found\":{found},\"absent\":{absent},\"unknown\":0,\"refused\":{refused},");
    assert!(
        summary.starts_with(&begins) && summary.contains(&counts),
        "{summary} {counts}"
    );
}

/// A line has the word, the row and the text that were meant.
fn compare_line(line: &str, row: usize, word: Word, text: Option<String>) {
    let word = ["found", "absent", "refused"][word as usize];
    assert!(
        line.starts_with(&format!("{{\"answer\":\"{word}\",")),
        "{line}"
    );
    let ends = [
        format!(",\"row\":{row}}}"),
        format!(",\"row\":{row},\"words\":"),
    ];
    assert!(
        ends.iter().any(|end| line.contains(end)),
        "row {row}: {line}"
    );
    let text = text.map(|text| format!(":{},", quoted(&text)));
    assert!(text.is_none_or(|text| line.contains(&text)), "{line}");
}

/// Which answer a row must have.
#[derive(Clone, Copy)]
enum Word {
    Found,
    Absent,
    Refused,
}

/// The answer of a row by what was meant, and its text where it has one.
fn meant(content: Option<&[u8]>) -> (Word, Option<String>) {
    let Some(content) = content else {
        return (Word::Refused, None);
    };
    let text = String::from_utf8(content.to_vec()).expect("it is text");
    let lower = text.to_lowercase();
    match (0..KEYS).find(|&number| key(number) == lower) {
        Some(number) if number < INDEXED => (Word::Found, Some(lower)),
        Some(_) => (Word::Absent, Some(lower)),
        None => (Word::Refused, Some(text)),
    }
}

/// A text as a JSON object has it.
fn quoted(text: &str) -> String {
    let mut shown = text.to_string();
    for (character, escaped) in [("\\", "\\\\"), ("\t", "\\t"), ("\n", "\\n"), ("\r", "\\r")] {
        shown = shown.replace(character, escaped);
    }
    format!("\"{}\"", shown.replace('\\', "\\\\").replace('"', "\\\""))
}
