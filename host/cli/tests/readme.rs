//! The commands of README.md give what stands under them, run one after the other in a copy of the
//! sample build. What goes to standard error stands after the rest.

mod run;

use std::fs;
use std::path::Path;

use run::{copy_tree, dwarnizza, folder, output};

/// How a command begins, and what stands before each line of its output.
const COMMAND: &str = "    $ ./dwarnizza ";
const INDENT: &str = "    ";

/// The commands of a text, with the output that stands under each.
fn commands(text: &str) -> Vec<(&str, String)> {
    let mut commands: Vec<(&str, String)> = Vec::new();
    let mut inside = false;
    for line in text.lines() {
        if let Some(command) = line.strip_prefix(COMMAND) {
            commands.push((command, String::new()));
            inside = true;
        } else if let (true, Some(line)) = (inside, line.strip_prefix(INDENT)) {
            let (_, output) = commands.last_mut().expect("a command was met");
            output.push_str(line);
            output.push('\n');
        } else {
            inside = false;
        }
    }
    commands
}

#[test]
fn the_commands_give_what_stands_under_them() {
    let repository = Path::new(env!("CARGO_MANIFEST_DIR")).join("../..");
    let folder = folder("readme");
    copy_tree(&repository.join("sample"), &folder.join("sample"));
    let text = fs::read_to_string(repository.join("README.md")).expect("it is there");
    let commands = commands(&text);
    assert!(
        commands[0].0.starts_with("resolve "),
        "the first command resolves file numbers"
    );
    assert!(commands.len() >= 5);
    for (command, expected) in commands {
        let said = output(dwarnizza(command.split(' ')), &folder, b"");
        let said = [said.stdout, said.stderr].concat();
        let said = String::from_utf8(said).expect("it is text");
        assert_eq!(said, expected, "{command}");
    }
}
