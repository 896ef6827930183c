//! Tells the program which compiler it is compiled by, and links keys compared byte by byte.

use std::env;
use std::path::Path;
use std::process::Command;

fn main() {
    println!("cargo::rerun-if-changed=build.rs");
    tell_compiler();
    link("key_bytes");
    link("halving_bytes");
}

fn tell_compiler() {
    let rustc = env::var_os("RUSTC").expect("cargo names the compiler");
    let output = Command::new(rustc).arg("-vV").output();
    let output = output.expect("the compiler tells its version");
    let text = String::from_utf8(output.stdout).expect("a version is text");
    let first = text.lines().next().unwrap_or("rustc");
    let llvm = text.lines().find(|line| line.starts_with("LLVM version"));
    println!(
        "cargo::rustc-env=BENCH_RUSTC={first}, {}",
        llvm.unwrap_or("no LLVM")
    );
}

/// Links the archive of a crate, which stands beside the library.
fn link(name: &str) {
    let dir = env::var("DEP_DWARNIZZA_LIB_DIR").expect("host/sys tells where the library is");
    let archive = Path::new(&dir).join(format!("lib{name}.a"));
    println!("cargo::rerun-if-changed={}", archive.display());
    if archive.is_file() {
        println!("cargo::rustc-link-search=native={dir}");
        println!("cargo::rustc-link-lib=static={name}");
    } else {
        println!(
            "cargo::error=there is no {}: run `tools/archives {name}` in the repository's root; \
             it belongs beside libdwarnizza.a",
            archive.display()
        );
    }
}
