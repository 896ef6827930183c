//! The header's table of refusals has the numbers of the proved crates.

use std::collections::BTreeMap;

use crate::c::{Row, refusals};
use crate::{header, text};

/// A reason's name as the header writes it: `INDEX_SHORT` for `IndexShort`.
fn header_name(reason: &str) -> String {
    let mut name = String::new();
    for letter in reason.chars() {
        if letter.is_uppercase() && !name.is_empty() {
            name.push('_');
        }
        name.push(letter.to_ascii_uppercase());
    }
    name
}

/// The names and numbers of the reasons of the crate `refusal`, in its order.
fn proved_numbers() -> Vec<(String, u32)> {
    let file = text("crates/refusal/src/lib.rt");
    let (_, reasons) = file
        .split_once("pub enum Reason {\n")
        .expect("the crate has the reasons");
    let (reasons, _) = reasons.split_once("\n}\n").expect("the enum ends");
    let rows = reasons
        .lines()
        .map(str::trim)
        .filter(|line| !line.starts_with("//"));
    let numbers = rows.map(|row| {
        let (reason, number) = row
            .trim_end_matches(',')
            .split_once(" = ")
            .expect("each reason has its number");
        let number = number.parse().expect("it is a number");
        (header_name(reason), number)
    });
    numbers.collect()
}

/// The numbers that the program `list_index` prints a place with.
fn numbers_with_place() -> Vec<u32> {
    let file = text("crates/listing_printed/src/lib.rt");
    let (_, function) = file
        .split_once("fn has_place(")
        .expect("the crate tells which reasons have a place");
    let (_, body) = function
        .split_once("match reason {\n")
        .expect("it names the reasons");
    let (reasons, _) = body
        .split_once(" => true,\n        _ => false,\n    }\n}\n")
        .expect("all others have none");
    let numbers: BTreeMap<String, u32> = proved_numbers().into_iter().collect();
    let named = reasons.split('|').map(|reason| {
        let reason = reason.trim().strip_prefix("Reason::");
        numbers[&header_name(reason.expect("each is a reason"))]
    });
    named.collect()
}

#[test]
fn the_table_has_the_names_and_numbers_of_the_proved_crates() {
    let in_header: Vec<(String, u32)> = refusals(&header())
        .into_iter()
        .map(|Row { name, number, .. }| (name, number))
        .collect();
    assert!(!in_header.is_empty());
    assert_eq!(in_header, proved_numbers());
}

#[test]
fn the_table_names_a_place_where_the_proved_program_prints_one() {
    let in_header: Vec<u32> = refusals(&header())
        .into_iter()
        .filter(|row| !row.place.is_empty())
        .map(|row| row.number)
        .collect();
    let proved: Vec<u32> = proved_numbers()
        .into_iter()
        .map(|(_, number)| number)
        .filter(|number| numbers_with_place().contains(number))
        .collect();
    assert!(!proved.is_empty());
    assert_eq!(in_header, proved);
}

#[test]
fn each_number_has_words() {
    for Row { name, words, .. } in refusals(&header()) {
        assert!(!words.trim().is_empty(), "{name}");
    }
}

#[test]
fn a_table_is_read_row_by_row() {
    let header = "\
        #define DWARNIZZA_REFUSALS(X) \\\n    \
            X(DWARNIZZA_ONE, 1, \"one, two\", \"\") \\\n    \
            X(DWARNIZZA_TWO, 20, \"it's\", \"block at byte\")\n\
        \n\
        X(DWARNIZZA_THREE, 3, \"no row\", \"\")\n";
    let row = |name: &str, number, words: &str, place: &str| Row {
        name: name.into(),
        number,
        words: words.into(),
        place: place.into(),
    };
    assert_eq!(
        refusals(header),
        [
            row("ONE", 1, "one, two", ""),
            row("TWO", 20, "it's", "block at byte")
        ]
    );
}
