//! One key: its text, and an entry of a list with it.

use fuzz::export::{ANSWERED, Export, Given, KEY_TEXT, LIST_PUT};

use crate::table::{Call, Table};

/// How many bytes the keys have.
const LENGTHS: [usize; 3] = [1, 9, 16];

const KEY: [u8; 16] = *b"\x00\x17\xa4\x02\xf5\x56\xfb\xec\xe4\x6c\x38\xdc\x43\x1a\x2c\x9b";

const TEXT: &[u8] = b"0017a402f556fbece46c38dc431a2c9b";

/// Version 1 and W 6.
const VERSION: u64 = 1;
const OFFSET_WIDTH: u64 = 6;

/// Prints the lines.
pub fn measure(table: &mut Table) {
    table.calls(LENGTHS.map(|length| Call {
        given: Box::new(move |_| Given::new([&TEXT[..2 * length]], [length as u64])),
        output: 16,
        ..call(&KEY_TEXT, length)
    }));
    table.calls(LENGTHS.map(|length| Call {
        given: Box::new(move |number| {
            let (size, offset) = (number % 1000, number % 5000);
            let numbers = [VERSION, OFFSET_WIDTH, length as u64, size, 7, offset];
            Given::new([&KEY[..length]], numbers)
        }),
        output: length + 4 + OFFSET_WIDTH as usize,
        ..call(&LIST_PUT, length)
    }));
}

/// A call with a key of this length.
fn call(export: &'static Export, length: usize) -> Call<'static> {
    Call {
        export,
        kind: "",
        size: length,
        unit: "B",
        given: Box::new(|_| Given::new([], [])),
        result: ANSWERED,
        output: 0,
        hashed: Vec::new(),
    }
}
