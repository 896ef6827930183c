//! Links the proved library, libdwarnizza.a.

use std::env;
use std::path::{Path, PathBuf};

/// Where the archive is, if not in the repository's target/staticlib. An absolute path.
const LIB_DIR: &str = "DWARNIZZA_LIB_DIR";

fn main() {
    let dir = match env::var_os(LIB_DIR) {
        Some(dir) => PathBuf::from(dir),
        None => repository().join("target/staticlib"),
    };
    let archive = dir.join("libdwarnizza.a");

    println!("cargo::rerun-if-env-changed={LIB_DIR}");
    println!("cargo::rerun-if-changed={}", archive.display());
    // Cargo tells it to the build script of a package that depends on this one.
    println!("cargo::metadata=lib_dir={}", dir.display());
    if archive.is_file() {
        println!("cargo::rustc-link-search=native={}", dir.display());
        println!("cargo::rustc-link-lib=static=dwarnizza");
    } else {
        println!(
            "cargo::error=there is no {}: run `tools/archives dwarnizza` in the repository's root, \
             or set {LIB_DIR} to the folder of libdwarnizza.a",
            archive.display()
        );
    }
}

/// The repository, of which this package is host/sys.
fn repository() -> PathBuf {
    let package = env::var_os("CARGO_MANIFEST_DIR").expect("cargo names the package's folder");
    let repository = Path::new(&package).ancestors().nth(2);
    repository
        .expect("the package is two folders down")
        .to_path_buf()
}
