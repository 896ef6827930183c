//! Lists that Python's csv module wrote in all its dialects, with what was meant.

use std::io::ErrorKind;
use std::path::Path;
use std::process::Command;

/// A list.
pub struct Written {
    pub separator: u8,
    /// The column that is meant, from 0.
    pub column: usize,
    pub text: Vec<u8>,
    pub rows: Vec<Row>,
}

/// What was meant by a row: how many fields it has, none of an empty row, and what stands in the
/// column.
pub struct Row {
    pub fields: usize,
    pub content: Vec<u8>,
}

impl Written {
    /// What a row has in the column; none where it must be refused, as it is empty or has another
    /// number of fields than the first that is not.
    pub fn content(&self, row: usize) -> Option<&[u8]> {
        let first = self.rows.iter().find(|row| row.fields > 0)?;
        let row = &self.rows[row];
        (row.fields == first.fields).then_some(&row.content)
    }
}

/// `count` lists of up to `rows` rows, of `keys` or of `paths`; none, which is said, where there is
/// no Python.
pub fn lists(kind: &str, count: usize, rows: usize, seed: usize) -> Option<Vec<Written>> {
    let script = Path::new(env!("CARGO_MANIFEST_DIR")).join("tests/written/lists.py");
    let numbers = [count, rows, seed].map(|number| number.to_string());
    let mut python = Command::new("python3");
    python.arg("-B").arg(script).arg(kind).args(numbers);
    let output = match python.output() {
        Err(error) if error.kind() == ErrorKind::NotFound => {
            println!("python3 is not on this machine, and is left out");
            return None;
        }
        output => output.expect("python3 starts"),
    };
    let errors = String::from_utf8_lossy(&output.stderr);
    assert!(output.status.success(), "python3 fails: {errors}");
    let mut rest = &output.stdout[..];
    let lists: Vec<_> = (0..count).map(|_| list(&mut rest)).collect();
    assert!(rest.is_empty());
    Some(lists)
}

fn list(rest: &mut &[u8]) -> Written {
    Written {
        separator: bytes(rest, 1)[0],
        column: number(rest),
        text: part(rest).to_vec(),
        rows: (0..number(rest))
            .map(|_| Row {
                fields: number(rest),
                content: part(rest).to_vec(),
            })
            .collect(),
    }
}

fn bytes<'a>(rest: &mut &'a [u8], count: usize) -> &'a [u8] {
    rest.split_off(..count).expect("the lists go on")
}

fn number(rest: &mut &[u8]) -> usize {
    let bytes = bytes(rest, 4).try_into().expect("there are four");
    u32::from_be_bytes(bytes) as usize
}

fn part<'a>(rest: &mut &'a [u8]) -> &'a [u8] {
    let length = number(rest);
    bytes(rest, length)
}
