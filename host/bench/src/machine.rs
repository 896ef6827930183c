//! The machine and the compilers that the numbers are of.

use std::env::{self, consts::ARCH};
use std::ffi::OsStr;
use std::fs;
use std::num::NonZero;
use std::path::PathBuf;
use std::process::Command;
use std::thread;

use crate::measure::{BATCH, ROUNDS};
use crate::openssl::Libcrypto;

/// What a name is told as where nothing tells it.
const UNKNOWN: &str = "unknown";

/// Prints a line for each.
pub fn print() {
    let cores = thread::available_parallelism().map_or(0, NonZero::get);
    println!("- Processor: {}, {cores} cores.", processor());
    println!("- The library: {}, {}.", kit(), kit_compiler());
    println!("- The second program: {}.", env!("BENCH_RUSTC"));
    println!(
        "- The C compiler of the machine: {}.",
        first_line_of("cc", "--version")
    );
    let openssl = Libcrypto::open().map(|libcrypto| libcrypto.version());
    println!("- OpenSSL: {}.", openssl.as_deref().unwrap_or("absent"));
    println!(
        "- Times are the best of {ROUNDS} rounds in which all take turns, {} ms or more each \
         time.",
        BATCH.as_millis()
    );
    println!();
}

fn processor() -> String {
    let information = fs::read_to_string("/proc/cpuinfo").unwrap_or_default();
    let model = information
        .lines()
        .find_map(|line| line.strip_prefix("model name")?.split_once(": "));
    model.map_or(UNKNOWN, |(_, name)| name).to_string()
}

/// The kit that proves and compiles the library.
fn kit() -> String {
    first_line_of("rt", "version")
}

/// The compiler of the kit, which stands beside `rt`.
fn kit_compiler() -> String {
    let path = env::var_os("PATH").unwrap_or_default();
    let folders = env::split_paths(&path);
    let rt = folders
        .map(|folder| folder.join("rt"))
        .find(|rt| rt.is_file());
    let clang = rt.and_then(|rt| {
        let kit = rt.canonicalize().ok()?.parent()?.parent()?.to_path_buf();
        Some(kit.join("on").join(ARCH).join("toolchain/bin/clang"))
    });
    match clang.filter(|clang| clang.is_file()) {
        Some(clang) => first_line_of(&clang, "--version"),
        None => format!("compiler {UNKNOWN}"),
    }
}

/// The first line that a command prints.
fn first_line_of(command: impl AsRef<OsStr>, argument: &str) -> String {
    let name = PathBuf::from(command.as_ref());
    let output = Command::new(command).arg(argument).output();
    let text = output.map(|output| String::from_utf8_lossy(&output.stdout).into_owned());
    let line = text
        .ok()
        .and_then(|text| Some(text.lines().next()?.to_string()));
    line.unwrap_or_else(|| format!("{}: {UNKNOWN}", name.display()))
}
