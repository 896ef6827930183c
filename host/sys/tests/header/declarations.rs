//! The Rust declarations are those of the header.

use std::collections::BTreeMap;
use std::fmt;

use crate::{c, header, rust, text};

/// A function as C declares it.
#[derive(Clone, Debug, PartialEq)]
pub struct Declaration {
    pub name: String,
    pub result: String,
    pub parameters: Vec<Parameter>,
}

#[derive(Clone, Debug, PartialEq)]
pub struct Parameter {
    pub name: String,
    /// The C type, with a blank between its words and signs.
    pub c_type: String,
}

impl fmt::Display for Declaration {
    fn fmt(&self, f: &mut fmt::Formatter<'_>) -> fmt::Result {
        let parameters = self.parameters.iter();
        let parameters: Vec<String> = parameters
            .map(|Parameter { name, c_type }| format!("{name}: {c_type}"))
            .collect();
        write!(f, "({}) -> {}", parameters.join(", "), self.result)
    }
}

/// What differs between two lists of declarations, in whatever order each has them.
fn differences(header: &[Declaration], rust: &[Declaration]) -> Vec<String> {
    let by_name = |list: &[Declaration]| -> BTreeMap<String, Declaration> {
        let named = list.iter().map(|one| (one.name.clone(), one.clone()));
        named.collect()
    };
    let (header, mut rust) = (by_name(header), by_name(rust));
    let mut differences = Vec::new();
    for (name, in_header) in header {
        match rust.remove(&name) {
            None => differences.push(format!("{name} is in the header alone")),
            Some(in_rust) if in_rust != in_header => differences.push(format!(
                "{name} is {in_header} in the header, {in_rust} in Rust"
            )),
            Some(_) => {}
        }
    }
    differences.extend(
        rust.into_keys()
            .map(|name| format!("{name} is in Rust alone")),
    );
    differences
}

#[test]
fn the_rust_declarations_are_those_of_the_header() {
    let header = c::declarations(&header());
    let rust = rust::declarations(&text("host/sys/src/lib.rs"));
    assert!(!header.is_empty());
    assert_eq!(differences(&header, &rust), [""; 0]);
}

#[test]
fn no_function_is_declared_twice() {
    for list in [
        c::declarations(&header()),
        rust::declarations(&text("host/sys/src/lib.rs")),
    ] {
        let mut names: Vec<&str> = list.iter().map(|one| one.name.as_str()).collect();
        names.sort_unstable();
        assert!(
            names.is_sorted_by(|before, after| before < after),
            "{names:?}"
        );
    }
}

/// The comment right before a declaration says what the call answers.
#[test]
fn every_function_has_its_contract_in_words() {
    let header = header();
    for Declaration { name, result, .. } in c::declarations(&header) {
        let (before, _) = header
            .split_once(&format!("{result} {name}("))
            .expect("it is declared");
        let comment = before
            .strip_suffix(" */\n")
            .and_then(|before| before.rsplit_once("/*"));
        let (_, contract) = comment.unwrap_or_else(|| panic!("{name} has no comment"));
        assert!(contract.contains("Answered"), "{name}:{contract}");
    }
}

const C: &str = "\
/* uint32_t dwarnizza_comment(void); */
#define DWARNIZZA_MACRO(x) \\
    dwarnizza_macro(x);
static inline int dwarnizza_inline(int x) { return x; }
struct dwarnizza_struct { int x; };
uint32_t dwarnizza_a(const uint8_t *data, size_t data_len,
                     uint8_t key[16], uint64_t answer[8]);
uint32_t dwarnizza_b(const uint32_t words[4], uint64_t *count, uint8_t *output);
";

const RUST: &str = "\
unsafe extern \"C\" {
    // A comment: fn dwarnizza_comment();
    pub fn dwarnizza_a(
        data: *const u8,
        data_len: usize,
        key: &mut [u8; 16],
        answer: &mut [u64; 8],
    ) -> u32;

    pub safe fn dwarnizza_b(words: &[u32; 4], count: &mut u64, output: *mut u8) -> u32;
}
";

/// What differs once `from` is `to` in the Rust text.
fn drift(from: &str, to: &str) -> Vec<String> {
    let rust = RUST.replacen(from, to, 1);
    assert!(from.is_empty() || rust != RUST, "{from} is in the text");
    differences(&c::declarations(C), &rust::declarations(&rust))
}

#[test]
fn equal_declarations_do_not_differ() {
    assert_eq!(drift("", ""), [""; 0]);
    assert_eq!(c::declarations(C).len(), 2);
}

#[test]
fn every_drift_is_told() {
    for (from, to) in [
        ("data: *const u8", "data: *mut u8"),
        ("data: *const u8", "input: *const u8"),
        ("data_len: usize", "data_len: u64"),
        ("[u8; 16]", "[u8; 15]"),
        ("answer: &mut [u64; 8]", "answer: &[u64; 8]"),
        ("words: &[u32; 4]", "words: &[u64; 4]"),
        ("count: &mut u64", "count: u64"),
        (
            "count: &mut u64, output: *mut u8",
            "output: *mut u8, count: &mut u64",
        ),
        (", output: *mut u8", ""),
        ("output: *mut u8", "output: *mut u8, output_len: usize"),
        ("-> u32", "-> u64"),
    ] {
        let told = drift(from, to);
        assert_eq!(told.len(), 1, "{from} as {to}: {told:?}");
    }
}

#[test]
fn a_function_on_one_side_is_told() {
    assert_eq!(
        drift("dwarnizza_b", "dwarnizza_c"),
        [
            "dwarnizza_b is in the header alone",
            "dwarnizza_c is in Rust alone"
        ]
    );
    let (header, rust) = (c::declarations(C), rust::declarations(RUST));
    assert_eq!(
        differences(&header[..1], &rust),
        ["dwarnizza_b is in Rust alone"]
    );
    assert_eq!(
        differences(&header, &rust[1..]),
        ["dwarnizza_a is in the header alone"]
    );
}
