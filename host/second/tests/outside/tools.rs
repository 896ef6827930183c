//! Tools of the machine.

use std::io::{ErrorKind, Write};
use std::path::Path;
use std::process::{Command, Stdio};
use std::thread;

/// What a command prints for this input; none, which is said, where the machine has it not.
pub fn printed_by(command: &mut Command, input: &[u8]) -> Option<Vec<u8>> {
    let name = command.get_program().to_string_lossy().into_owned();
    let spawned = command.stdin(Stdio::piped()).stdout(Stdio::piped()).spawn();
    let mut child = match spawned {
        Ok(child) => child,
        Err(error) if error.kind() == ErrorKind::NotFound => {
            println!("{name} is not on this machine, and is left out");
            return None;
        }
        Err(error) => panic!("{name} does not start: {error}"),
    };
    let mut stdin = child.stdin.take().expect("its input is a pipe");
    let output = thread::scope(|scope| {
        scope.spawn(move || stdin.write_all(input).expect("it reads all its input"));
        child.wait_with_output().expect("it ends")
    });
    assert!(output.status.success(), "{name} fails: {}", output.status);
    Some(output.stdout)
}

/// What the Python script beside this prints with these arguments for this input.
pub fn printed_by_python(arguments: &[String], input: &[u8]) -> Option<Vec<u8>> {
    let script = Path::new(env!("CARGO_MANIFEST_DIR")).join("tests/outside/formats.py");
    let mut python = Command::new("python3");
    // No folder of compiled files beside the script.
    python.arg("-B").arg(script).args(arguments);
    printed_by(&mut python, input)
}

/// The lines that the script prints.
pub fn lines_by_python(command: &str, input: &[u8]) -> Option<Vec<String>> {
    let text = printed_by_python(&[command.to_string()], input)?;
    let text = String::from_utf8(text).expect("the script prints text");
    Some(text.lines().map(str::to_string).collect())
}
