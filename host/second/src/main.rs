//! Prints what the library's own programs should print, by the second program.

#![forbid(unsafe_code)]

use std::env;
use std::io::{self, Read, Write};
use std::process::ExitCode;

use second::{index, md5_suite};

const USAGE: &str = "usage: second md5-suite | listing < INDEX";

fn main() -> ExitCode {
    let arguments: Vec<_> = env::args_os().skip(1).collect();
    let text = match arguments.as_slice() {
        [name] if name == "md5-suite" => Ok(md5_suite::second()),
        [name] if name == "listing" => listing(),
        _ => {
            eprintln!("{USAGE}");
            return ExitCode::from(2);
        }
    };
    match text.and_then(|text| io::stdout().write_all(text.as_bytes())) {
        Ok(()) => ExitCode::SUCCESS,
        Err(error) => {
            eprintln!("second: {error}");
            ExitCode::FAILURE
        }
    }
}

/// What the listing program prints for what stands on standard input.
fn listing() -> io::Result<String> {
    let mut input = Vec::new();
    io::stdin().read_to_end(&mut input)?;
    Ok(index::printed(&input))
}
