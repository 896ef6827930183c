//! Worklists: their rows, fields and file numbers.

use std::hint::black_box;

use fuzz::export::{
    ANSWERED, Export, FILE_NUMBER, Given, WORKLIST_FIELD, WORKLIST_ROW, WORKLIST_UNQUOTED,
};

use crate::measure::{Contender, mixed};
use crate::table::{Call, Table, Timed, library};

/// How many rows the lists have.
const ROWS: [usize; 3] = [1000, 10_000, 100_000];

/// How many bytes the quoted fields have.
const FIELDS: [usize; 3] = [16, 1000, 100_000];

const COMMA: u64 = b',' as u64;

/// A list as a spreadsheet writes it: a file number, a word, and a quoted field with a separator
/// and quotes.
struct List {
    text: Vec<u8>,
    /// Where its rows begin.
    places: Vec<u64>,
}

impl List {
    fn new(rows: usize) -> Self {
        let (mut text, mut places) = (Vec::new(), Vec::new());
        for row in 0..rows as u64 {
            places.push(text.len() as u64);
            let number = mixed(row) as u32;
            let line = format!("{number},sword,\"long, \"\"{row}\"\"\"\r\n");
            text.extend(line.into_bytes());
        }
        Self { text, places }
    }

    /// A field of one row after the other.
    fn field(&self, column: u64) -> Call<'_> {
        let given = move |number: u64| {
            let at = self.places[number as usize % self.places.len()];
            Given::new([&self.text], [at, COMMA, column])
        };
        Call {
            kind: ", the third of a row",
            given: Box::new(given),
            ..call(&WORKLIST_FIELD, self.places.len(), "rows")
        }
    }

    /// All rows from the first on, by a program that gives the words of one.
    fn rows(&self, row: impl Fn(&Given) -> Option<[u64; 8]>) -> usize {
        let (mut at, mut rows) = (0, 0);
        while let Some([_, next, ..]) = row(&Given::new([&self.text], [at, COMMA])) {
            at = next;
            rows += 1;
        }
        rows
    }

    fn rows_by_library(&self) -> usize {
        self.rows(|given| {
            let mut answer = [0; 8];
            let result = library(&WORKLIST_ROW, given, &mut [], &mut answer);
            (result == ANSWERED).then_some(answer)
        })
    }

    fn rows_by_second(&self) -> usize {
        self.rows(|given| {
            let said = (WORKLIST_ROW.second)(given, &mut []);
            (said.result == ANSWERED).then_some(said.words)
        })
    }
}

/// Prints the lines.
pub fn measure(table: &mut Table) {
    let lists = ROWS.map(List::new);
    for list in &lists {
        all_rows(table, list);
    }
    table.calls(lists.iter().map(|list| list.field(2)));
    let fields = FIELDS.map(|length| quoted(length - 2));
    table.calls(fields.iter().map(|field| Call {
        given: Box::new(|_| Given::new([field], [])),
        output: field.len(),
        ..call(&WORKLIST_UNQUOTED, field.len(), "B")
    }));
    table.calls(["7", "41741", "4294967295"].map(|text| Call {
        given: Box::new(|_| Given::new([text.as_bytes()], [])),
        ..call(&FILE_NUMBER, text.len(), "B")
    }));
}

/// Times the rows of a whole list, after seeing that both programs find all.
fn all_rows(table: &mut Table, list: &List) {
    let rows = list.places.len();
    assert_eq!([list.rows_by_library(), list.rows_by_second()], [rows; 2]);
    table.line(Timed {
        name: "`worklist_row`, all rows of a list".to_string(),
        size: rows,
        unit: "rows",
        library: repeated(|| list.rows_by_library()),
        second: repeated(|| list.rows_by_second()),
        openssl: Vec::new(),
    });
}

fn repeated<'a>(task: impl Fn() -> usize + 'a) -> Contender<'a> {
    Box::new(move |times| {
        for _ in 0..times {
            black_box(task());
        }
    })
}

/// A quoted field with `length` bytes between its quotes, every tenth two of them a quote.
fn quoted(length: usize) -> Vec<u8> {
    let content = (0..length).map(|byte| match byte % 20 {
        4 | 5 => b'"',
        _ => b'a',
    });
    [b'"'].into_iter().chain(content).chain([b'"']).collect()
}

fn call(export: &'static Export, size: usize, unit: &'static str) -> Call<'static> {
    Call {
        export,
        kind: "",
        size,
        unit,
        given: Box::new(|_| Given::new([], [])),
        result: ANSWERED,
        output: 0,
        hashed: Vec::new(),
    }
}
