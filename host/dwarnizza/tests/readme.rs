//! The Rust of README.md is that of the crate's own example, which is tested.

use std::fs;
use std::path::Path;

#[test]
fn the_lines_are_those_of_the_example() {
    let package = Path::new(env!("CARGO_MANIFEST_DIR"));
    let read = |name| fs::read_to_string(package.join(name)).expect("it is there");
    let (readme, library) = (read("../../README.md"), read("src/lib.rs"));
    let start = readme
        .find("    use dwarnizza::")
        .expect("it has the example");
    let lines = readme[start..]
        .lines()
        .take_while(|line| line.is_empty() || line.starts_with("    "));
    let mut example = library.lines();
    let mut compared = 0;
    for line in lines.filter(|line| !line.is_empty()) {
        let documented = format!("//! {}", &line[4..]);
        assert!(example.any(|line| line == documented), "{documented}");
        compared += 1;
    }
    assert_eq!(compared, 8);
}
