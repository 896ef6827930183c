//! The comparison notices what is wrong, and a run is the same each time.

use std::fs;
use std::path::Path;

use fuzz::compare::{Comparison, Difference, Output, What};
use fuzz::counts::Counts;
use fuzz::export::{self, Export, Given, INDEX_CHECK, INDEX_LOOKUP, INDEX_WRITE, KEY_TEXT, Said};
use fuzz::keep::keep_inputs;
use fuzz::lent::Lent;
use fuzz::run;

/// A call of the library, after which this is done to what was lent.
fn with_fault(
    export: &'static Export,
    given: &Given,
    output: Output,
    fault: impl FnOnce(Lent, &mut u32),
) -> Result<Said, Box<Difference>> {
    let library = |given: &Given, lent: Lent| {
        // SAFETY: the memory is lent for this call, and the given is that of the export.
        let mut result = unsafe { export.library.call(given, lent) };
        fault(lent, &mut result);
        result
    };
    Comparison::default().call_as(export, library, given, output)
}

/// What is noticed where an index of no entries is written, which is answered with 28 bytes, and
/// then this is done.
fn noticed(fault: impl FnOnce(Lent, &mut u32)) -> Option<What> {
    let given = Given::new([&[]], [1, 4, 16]);
    let said = with_fault(&INDEX_WRITE, &given, Output::Bytes(40), fault);
    said.err().map(|difference| difference.what)
}

/// Changes the byte of the output at this place, which may lie outside of it.
fn change_byte(lent: Lent, place: isize) {
    // SAFETY: the output and its guards are one allocation, and the place is within these.
    unsafe { *lent.output.offset(place) ^= 1 }
}

/// Changes the word of the answer at this place, which may lie outside of it.
fn change_word(lent: Lent, place: isize) {
    // SAFETY: the answer and its guards are one allocation, and the place is within these.
    unsafe { *lent.answer.cast::<u64>().offset(place) ^= 1 }
}

#[test]
fn no_fault() {
    assert_eq!(noticed(|_, _| ()), None);
}

#[test]
fn another_result() {
    assert_eq!(noticed(|_, result| *result = 1), Some(What::Said));
}

#[test]
fn every_word_of_the_answer() {
    for place in 0..8 {
        let what = noticed(|lent, _| change_word(lent, place));
        assert_eq!(what, Some(What::Said), "word {place}");
    }
}

#[test]
fn every_byte_of_the_output() {
    for place in 0..40 {
        let what = noticed(|lent, _| change_byte(lent, place));
        assert_eq!(what, Some(What::Output(place as usize)));
    }
}

#[test]
fn bytes_outside_the_output() {
    for place in [-64, -1, 40, 103] {
        let what = noticed(|lent, _| change_byte(lent, place));
        assert_eq!(what, Some(What::Guard), "byte {place}");
    }
}

#[test]
fn words_outside_the_answer() {
    for place in [-8, -1, 8, 15] {
        let what = noticed(|lent, _| change_word(lent, place));
        assert_eq!(what, Some(What::Guard), "word {place}");
    }
}

#[test]
fn output_of_a_refused_call() {
    let given = Given::new([b"0"], [1]);
    let fault = |lent, _: &mut u32| change_byte(lent, 15);
    let difference = with_fault(&KEY_TEXT, &given, Output::Bytes(16), fault).unwrap_err();
    assert_eq!(difference.what, What::NotKept);
    assert_eq!(difference.by_library.words[0], 60);
}

#[test]
fn a_difference_names_the_call() {
    let given = Given::new([&[0; 27]], []);
    let fault = |lent, _: &mut u32| change_word(lent, 1);
    let difference = with_fault(&INDEX_CHECK, &given, Output::None, fault).unwrap_err();
    let text = difference.to_string();
    for part in [
        "dwarnizza_index_check: the answers differ",
        "index: 27 bytes",
        "library: refused [1, 1, 0, 0, 0, 0, 0, 0]",
        "second:  refused [1, 0, 0, 0, 0, 0, 0, 0]",
    ] {
        assert!(text.contains(part), "{part:?} is not in {text:?}");
    }
}

#[test]
fn the_inputs_of_a_difference_are_kept() {
    let given = Given::new([&[7; 30], &[8; 16]], []);
    let fault = |lent, _: &mut u32| change_word(lent, 2);
    let difference = with_fault(&INDEX_LOOKUP, &given, Output::None, fault).unwrap_err();
    let folder = Path::new(env!("CARGO_TARGET_TMPDIR")).join("kept");
    let paths = keep_inputs(&difference, &folder, 3, 5).unwrap();
    assert_eq!(paths, [folder.join("3-5-index"), folder.join("3-5-key")]);
    assert_eq!(fs::read(&paths[0]).unwrap(), [7; 30]);
    assert_eq!(fs::read(&paths[1]).unwrap(), [8; 16]);
}

#[test]
fn every_export_of_the_header_is_compared() {
    let header = Path::new(env!("CARGO_MANIFEST_DIR")).join("../../include/dwarnizza.h");
    let header = fs::read_to_string(header).expect("the header can be read");
    let declared = header.lines().filter_map(|line| {
        let name = line.strip_prefix("uint32_t ")?;
        Some(name.split('(').next().expect("a split has a first part"))
    });
    let compared = export::ALL.map(|export| export.name);
    let declared: Vec<_> = declared.collect();
    assert_eq!(declared, compared);
}

#[test]
fn counts_do_not_depend_on_threads() {
    let cases = 1000;
    let counts = |threads| run::all(7, cases, threads, &|_| ()).expect("the programs agree");
    let mut comparison = Comparison::default();
    for case in (0..cases).rev() {
        run::one(7, case, &mut comparison).expect("the programs agree");
    }
    assert_eq!(counts(1), comparison.counts);
    assert_eq!(counts(3), comparison.counts);
}

#[test]
fn an_empty_run_reaches_nothing() {
    let missing = Counts::default().not_reached();
    assert!(missing.contains(&("dwarnizza_index_check", 9)));
    assert!(missing.contains(&("dwarnizza_md5", 0)));
}

#[test]
fn few_cases_reach_every_refusal() {
    let counts = run::all(1, 20_000, 2, &|_| ()).expect("the programs agree");
    assert_eq!(counts.not_reached(), []);
}
