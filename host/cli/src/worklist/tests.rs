//! Lists that Python's csv module wrote: every row comes back once, as it was meant.

#[path = "../../tests/written/mod.rs"]
mod written;

use super::shape::Asked;
use super::{Cell, File, List};
use crate::batch::Texts;
use written::Written;

/// How many lists are read, and how many rows each has at most.
const LISTS: usize = 100_000;
const ROWS: usize = 6;

#[test]
fn every_row_comes_back_as_it_was_meant() {
    let Some(lists) = written::lists("keys", LISTS, ROWS, 11) else {
        return;
    };
    let headers = lists.iter().zip([false, true].into_iter().cycle());
    let kept = headers.filter(|(list, header)| compare(list, *header));
    let kept = kept.count();
    assert!(kept > LISTS / 2, "{kept} lists have more than a header");
}

/// Compares the rows of a list with what was meant. It tells whether the list is taken: one that is
/// nothing but a header is refused.
fn compare(written: &Written, header: bool) -> bool {
    let file = File {
        name: "list".into(),
        bytes: written.text.clone(),
        skipped: 0,
        separator: written.separator,
        asked: Asked::at(written.column, header),
    };
    match file.list(Texts::Plain) {
        Ok(list) => {
            let shown = file.bytes.escape_ascii().to_string();
            assert!(!header || list.header().is_some(), "{shown}");
            compare_rows(written, &list, &shown);
            true
        }
        Err(failure) => {
            assert!(
                failure.words.contains("there is no other row"),
                "{failure:?}"
            );
            assert_eq!(written.rows.len(), 1);
            false
        }
    }
}

fn compare_rows(written: &Written, list: &List<'_>, shown: &str) {
    let rows = written.rows.len();
    assert_eq!(list.rows(), rows, "{shown}");
    let mut cells = list.cells();
    for row in list.header().map_or(1, |_| 2)..=rows {
        let (number, cell) = cells.next().expect("no row is dropped");
        let text = match &cell {
            Cell::Text(text) => Some(&text[..]),
            Cell::Fault(..) => None,
        };
        assert_eq!((number, text), (row, written.content(row - 1)), "{shown}");
    }
    assert!(cells.next().is_none(), "{shown}");
}
