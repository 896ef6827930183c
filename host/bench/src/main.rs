//! Benchmarks: every export of the library beside the second program, and beside OpenSSL's MD5 of
//! the bytes that the export hashes. All take turns in one run.
//!
//! Prints Markdown for docs/BENCHMARKS.md. One module for each format; with the name of one, that
//! one alone.

mod chain;
mod compare;
mod encoding;
mod envelope;
mod index;
mod key;
mod keys;
mod machine;
mod many;
mod md5;
mod measure;
mod openssl;
mod parsed;
mod path;
mod root;
mod table;
mod ways;
mod worklist;

use std::env;
use std::process::ExitCode;

use table::Table;

/// A part by its name.
type Part = (&'static str, fn(&mut Table));

const PARTS: [Part; 9] = [
    ("md5", md5::measure),
    ("index", index::measure),
    ("key", key::measure),
    ("envelope", envelope::measure),
    ("encoding", encoding::measure),
    ("root", root::measure),
    ("name_hash", path::measure),
    ("chain", chain::measure),
    ("worklist", worklist::measure),
];

/// Tables beside these: paths beside ids, many ids at once, lookups in parsed forms, and keys
/// compared byte by byte.
const TABLES: [(&str, fn()); 4] = [
    ("path", path::print),
    ("many", many::print),
    ("parsed", parsed::print),
    ("compare", compare::print),
];

fn main() -> ExitCode {
    let arguments: Vec<_> = env::args().skip(1).collect();
    let wanted = |name: &str| match arguments.as_slice() {
        [] => true,
        [only] => only == name,
        _ => false,
    };
    let parts = PARTS.into_iter().map(|(name, _)| name);
    let names: Vec<_> = parts.chain(TABLES.map(|(name, _)| name)).collect();
    if !names.iter().any(|name| wanted(name)) {
        eprintln!("usage: bench [{}]", names.join(" | "));
        return ExitCode::from(64);
    }
    machine::print();
    let parts = PARTS.iter().filter(|(name, _)| wanted(name));
    let mut table = Table::new();
    for (_, measure) in parts {
        measure(&mut table);
    }
    for (_, print) in TABLES.iter().filter(|(name, _)| wanted(name)) {
        print();
    }
    ExitCode::SUCCESS
}
