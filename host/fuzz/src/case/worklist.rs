//! A worklist: its rows, their fields and what these stand for; and the text of a file number.

use super::Compared;
use crate::compare::{Comparison, Difference, Output};
use crate::export::{
    ANSWERED, FILE_NUMBER, Given, WORKLIST_FIELD, WORKLIST_ROW, WORKLIST_UNQUOTED,
};
use forge::damage::{damage_whole, room};
use forge::random::Random;

/// The separators of spreadsheets, bytes at the bounds, and a digit.
const SEPARATORS: [u64; 8] = [44, 44, 59, 9, 124, 0, 255, 49];

/// Numbers that are no separators.
const NO_SEPARATORS: [u64; 5] = [10, 13, 34, 256, 0x8000_002c];

/// Bytes beside the digits.
const BESIDE: &[u8] = b"/: ,.+-E\0\xff";

pub fn compare(random: &mut Random, comparison: &mut Comparison) -> Compared {
    let separator = match random.within(0..=9) {
        0 => random.number(9),
        1 => random.pick(&NO_SEPARATORS),
        _ => random.pick(&SEPARATORS),
    };
    let text = text(random, separator as u8);
    rows(random, comparison, &text, separator)?;
    for _ in 0..3 {
        let near = random.within(0..=text.len() + 1) as u64;
        let far = random.number(64);
        let at = random.pick(&[near, near, near, far]);
        row(random, comparison, &text, [at, separator])?;
    }
    Ok(())
}

/// All rows from the first byte on.
fn rows(random: &mut Random, comparison: &mut Comparison, text: &[u8], separator: u64) -> Compared {
    let mut at = 0;
    while let Some(next) = row(random, comparison, text, [at, separator])? {
        at = next;
    }
    Ok(())
}

/// The row of these numbers, some of its fields, and the bytes of one. Gives where the next begins.
fn row(
    random: &mut Random,
    comparison: &mut Comparison,
    text: &[u8],
    [at, separator]: [u64; 2],
) -> Result<Option<u64>, Box<Difference>> {
    let given = Given::new([text], [at, separator]);
    let row = comparison.call(&WORKLIST_ROW, &given, Output::None)?;
    let [end, next, fields, ..] = row.words;
    let any = random.within(0..=fields as usize) as u64;
    for column in [
        any,
        fields.wrapping_sub(1),
        random.pick(&[fields, u64::MAX]),
    ] {
        let given = Given::new([text], [at, separator, column]);
        let said = comparison.call(&WORKLIST_FIELD, &given, Output::None)?;
        if said.result == ANSWERED {
            let [place, length, ..] = said.words.map(|word| word as usize);
            unquoted(random, comparison, &text[place..][..length])?;
        }
    }
    if row.result != ANSWERED {
        return Ok(None);
    }
    unquoted(random, comparison, &text[at as usize..end as usize])?;
    Ok(Some(next))
}

fn unquoted(random: &mut Random, comparison: &mut Comparison, field: &[u8]) -> Compared {
    let length = room(field.len(), random);
    comparison.call(
        &WORKLIST_UNQUOTED,
        &Given::new([field], []),
        Output::Bytes(length),
    )?;
    Ok(())
}

/// Rows of fields, plain and quoted; then damaged, or signs alone.
fn text(random: &mut Random, separator: u8) -> Vec<u8> {
    let signs = [
        b'"', b'"', b'"', separator, separator, b'\r', b'\n', b'4', b'1',
    ];
    let mut text = Vec::new();
    if random.one_in(3) {
        let length = random.within(0..=40);
        text.extend((0..length).map(|_| random.pick(&signs)));
        return text;
    }
    for _ in 0..random.within(0..=5) {
        for _ in 0..random.pick(&[0, 0, 1, 2, 4]) {
            field(random, &signs, &mut text);
            text.push(separator);
        }
        field(random, &signs, &mut text);
        text.extend(random.pick(&[&b"\n"[..], b"\r\n", b"\r", b""]));
    }
    match random.within(0..=5) {
        0 => damage_whole(&mut text, random),
        1 if !text.is_empty() => {
            let place = random.within(0..=text.len() - 1);
            text[place] = random.pick(&signs);
        }
        _ => {}
    }
    text
}

/// Puts a number, a word or a quoted field of signs.
fn field(random: &mut Random, signs: &[u8], text: &mut Vec<u8>) {
    match random.within(0..=4) {
        0 => {}
        1 => text.extend(random.number(32).to_string().bytes()),
        2 => text.extend(random.pick(&[&b"a\"b"[..], b"x\"", b" \"\"", b"id"])),
        _ => {
            text.push(b'"');
            for _ in 0..random.within(0..=6) {
                match random.pick(signs) {
                    b'"' => text.extend(b"\"\""),
                    sign => text.push(sign),
                }
            }
            text.push(b'"');
        }
    }
}

/// The text of a number about a bound, or damaged.
pub fn compare_number(random: &mut Random, comparison: &mut Comparison) -> Compared {
    let number = match random.within(0..=3) {
        0 => random.number(64),
        1 => u64::from(u32::MAX - 2) + random.word() % 5,
        _ => random.number(32),
    };
    let mut text = number.to_string().into_bytes();
    let place = random.within(0..=text.len() - 1);
    match random.within(0..=7) {
        0 => damage_whole(&mut text, random),
        1 => text[place] = random.pick(BESIDE),
        2 => text[place] = random.word() as u8,
        3 => text.insert(place, b'0'),
        4 => text.clear(),
        _ => {}
    }
    comparison.call(&FILE_NUMBER, &Given::new([&text], []), Output::None)?;
    Ok(())
}
