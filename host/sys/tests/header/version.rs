//! The header has the version of the packages.

use crate::c::constant;
use crate::header;

#[test]
fn the_header_has_the_version_of_the_packages() {
    let header = header();
    let version = env!("CARGO_PKG_VERSION");
    assert_eq!(
        constant(&header, "DWARNIZZA_VERSION"),
        format!("\"{version}\"")
    );
    let numbers = ["MAJOR", "MINOR", "PATCH"]
        .map(|part| constant(&header, &format!("DWARNIZZA_VERSION_{part}")));
    assert_eq!(numbers.join("."), version);
}
