//! Lists of paths that Python's csv module wrote in all its dialects, sought in random root files:
//! every row comes back once, in order, as it was given, with the answer of the second program.

mod run;
mod written;

use std::collections::HashSet;
use std::iter;
use std::path::Path;

use forge::build::{Root, flags};
use forge::random::Random;
use run::{Run, folder, put, run};
use second::root::{check, find_path};
use written::Written;

/// How many lists are answered, and how many rows each has at most.
const LISTS: usize = 600;
const ROWS: usize = 40;

/// The words of the lists that are headers.
const HEADERS: [&[u8]; 2] = [b"path", b"Name"];

#[test]
fn every_row_has_the_answer_of_the_second_program() {
    let folder = folder("path_csv");
    let Some(lists) = written::lists("paths", LISTS, ROWS, 13) else {
        return;
    };
    let mut random = Random::of_test();
    let mut counts = Counts::default();
    for (number, list) in lists.iter().enumerate() {
        let case = Case::new(&mut random, list, number % 5 == 1);
        counts.add(case.compare(&folder));
    }
    println!("{counts:?}");
    assert!(counts.found > LISTS && counts.absent > LISTS && counts.refused > LISTS);
}

/// How many rows have which answer.
#[derive(Clone, Copy, Debug, Default)]
struct Counts {
    found: usize,
    absent: usize,
    refused: usize,
    duplicate: usize,
}

impl Counts {
    fn count(&mut self, line: &str, again: bool) {
        self.found += usize::from(line.starts_with("found"));
        self.absent += usize::from(line.starts_with("absent"));
        self.refused += usize::from(line.starts_with("refused"));
        self.duplicate += usize::from(again);
    }

    fn add(&mut self, other: Self) {
        self.found += other.found;
        self.absent += other.absent;
        self.refused += other.refused;
        self.duplicate += other.duplicate;
    }
}

/// A list, and a root file of paths of it.
struct Case<'a> {
    list: &'a Written,
    header: bool,
    root: Vec<u8>,
    locale: u32,
    unwanted: u64,
}

impl<'a> Case<'a> {
    fn new(random: &mut Random, list: &'a Written, header: bool) -> Self {
        let paths: Vec<_> = list.rows.iter().map(|row| row.content.clone()).collect();
        let mut roots = iter::repeat_with(|| Root::named(random, &paths).file);
        let root = roots.find(|file| check(file).is_ok());
        let root = root.expect("most are checked");
        let flags = [flags(random), flags(random)];
        Self {
            list,
            header,
            root,
            locale: flags[0] | 2,
            unwanted: random.pick(&[0, 0, flags[1].into()]),
        }
    }

    /// What the tool says.
    fn answered(&self, folder: &Path) -> Run {
        put(folder, "root", &self.root);
        put(folder, "list", &self.list.text);
        let separator = char::from(self.list.separator);
        let mut options = vec![
            format!("--column={}", self.list.column + 1),
            format!("--separator={separator}"),
            format!("--locale={:#x}", self.locale),
            format!("--without={:#x}", self.unwanted),
        ];
        options.extend(self.header.then(|| "--header".to_string()));
        let find = ["root", "find", "--path", "root", "--worklist", "list"];
        run(folder, find.map(str::to_string).into_iter().chain(options))
    }

    /// Compares every line with the row that it is of.
    fn compare(&self, folder: &Path) -> Counts {
        let said = self.answered(folder);
        let rows = self.list.rows.len();
        let is_header = |text: &[u8]| HEADERS.contains(&text);
        let first = usize::from(self.header || self.list.content(0).is_some_and(is_header));
        if rows == first {
            said.expect(2, "refused\tlist\t-\t-\n", &["there is no other row"]);
            return Counts::default();
        }
        let mut counts = Counts::default();
        let mut seen = HashSet::new();
        let mut lines = said.lines.lines();
        for row in first..rows {
            let line = lines.next().expect("every row comes back");
            let content = self.list.content(row);
            self.compare_line(line, content, row + 1);
            let again = content.is_some_and(|path| !seen.insert(folded(path)));
            counts.count(line, again);
        }
        assert_eq!(lines.next(), None);
        compare_summary(&said, rows, counts);
        counts
    }

    /// Compares a line with the answer of the second program.
    fn compare_line(&self, line: &str, content: Option<&[u8]>, row: usize) {
        let (word, rest) = line.split_once('\t').expect("it has fields");
        let (text, rest) = rest.split_once('\t').expect("it has a row");
        if let Some(path) = content {
            match plain(path) {
                Some(path) => assert_eq!(text, path, "{line}"),
                None => assert_eq!(given(text), path, "{line}"),
            }
        }
        let sought = content.filter(|path| !path.is_empty());
        let answer = format!("{word}\t{rest}");
        assert_eq!(answer, self.expected(sought, row), "{line}");
    }

    /// The line of a row but for its path, which is none where the row is refused by the tool.
    fn expected(&self, path: Option<&[u8]>, row: usize) -> String {
        let Some(path) = path else {
            return format!("refused\t{row}");
        };
        match find_path(&self.root, path, self.locale, self.unwanted) {
            Ok(Some((id, record))) => {
                let key = record.key.map(|byte| format!("{byte:02x}")).concat();
                format!("found\t{id}\t{key}\t{}\t{row}", record.place)
            }
            Ok(None) => format!("absent\t{row}"),
            Err(refusal) => format!("refused\t{row}\t{}\t{}", refusal.number, refusal.place),
        }
    }
}

fn compare_summary(said: &Run, rows: usize, counts: Counts) {
    let Counts {
        found,
        absent,
        refused,
        duplicate,
    } = counts;
    let summary = said.errors.lines().last().expect("there is a summary");
    let plural = if rows == 1 { "" } else { "s" };
    let begins = format!("dwarnizza: {rows} row{plural}, ");
    let ends = format!(
        ": {found} found, {absent} absent, 0 unknown, {refused} refused; {duplicate} duplicate"
    );
    assert!(
        summary.starts_with(&begins) && summary.ends_with(&ends),
        "{summary} {ends}"
    );
    let status = if refused > 0 { 2 } else { (absent > 0).into() };
    assert_eq!(said.status, status, "{summary}");
}

/// A path with either slash as one and its letters in one case.
fn folded(path: &[u8]) -> Vec<u8> {
    let bytes = path.iter().map(|byte| match byte {
        b'/' => b'\\',
        byte => byte.to_ascii_uppercase(),
    });
    bytes.collect()
}

/// The path as text, where it is printable: then it is told as it is given.
fn plain(path: &[u8]) -> Option<&str> {
    let path = str::from_utf8(path).ok()?;
    let turns = |letter: char| {
        "\u{200e}\u{200f}\u{2028}\u{2029}\u{202a}\u{202b}\u{202c}\u{202d}\u{202e}".contains(letter)
            || ('\u{2066}'..='\u{2069}').contains(&letter)
    };
    let printable = |letter: char| !letter.is_control() && !turns(letter);
    path.chars().all(printable).then_some(path)
}

/// The bytes that an answer shows so, escaped.
fn given(shown: &str) -> Vec<u8> {
    let mut bytes = Vec::new();
    let mut rest = shown.as_bytes();
    while let Some(first) = rest.split_off_first() {
        bytes.push(match first {
            b'\\' => escaped(&mut rest),
            byte => *byte,
        });
    }
    bytes
}

/// What stands behind a backslash.
fn escaped(rest: &mut &[u8]) -> u8 {
    match rest.split_off_first() {
        Some(b'\\') => b'\\',
        Some(b't') => b'\t',
        Some(b'n') => b'\n',
        Some(b'r') => b'\r',
        Some(b'x') => {
            let digits = rest.split_off(..2).expect("there are two digits");
            let digits = str::from_utf8(digits).expect("digits are text");
            u8::from_str_radix(digits, 16).expect("they are hex")
        }
        other => panic!("a backslash before {other:?}"),
    }
}
