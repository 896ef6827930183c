//! `dwarnizza`: what the library does, from the command line. One module for each command.

#![forbid(unsafe_code)]

mod answers;
mod batch;
mod blte;
mod command;
mod encoding;
mod file_number;
mod files;
mod index;
mod input;
mod key_text;
mod looks;
mod masks;
mod md5;
mod name;
mod output;
mod parallel;
mod path;
mod replace;
mod resolve;
mod root;
mod status;
mod words;
mod worklist;

use std::env;
use std::ffi::OsString;
use std::process::ExitCode;

use command::{Arguments, Asked, Command, JSON, asked};
use name::shown;
use output::Output;
use status::{Failure, Status};

/// All commands, in the order of the usage.
const COMMANDS: &[Command] = &[
    resolve::COMMAND,
    index::check::COMMAND,
    index::list::COMMAND,
    index::find::COMMAND,
    index::write::COMMAND,
    index::info::COMMAND,
    index::diff::COMMAND,
    encoding::check::COMMAND,
    encoding::find::COMMAND,
    encoding::spec::COMMAND,
    root::check::COMMAND,
    root::find::COMMAND,
    blte::open::COMMAND,
    blte::key::COMMAND,
    md5::COMMAND,
];

fn main() -> ExitCode {
    let arguments: Vec<OsString> = env::args_os().skip(1).collect();
    let mut output = Output::new();
    if let Err(failure) = run(&arguments, &mut output) {
        if let Err(failure) = output.failed_command(&failure) {
            output.fail(&failure);
        }
        if failure.status == Status::Usage {
            output.error_bytes(b"`dwarnizza --help` tells all commands.\n");
        }
    }
    output.end().into()
}

fn run(arguments: &[OsString], output: &mut Output) -> Result<(), Failure> {
    let Some(first) = arguments.first() else {
        return Err(Failure::usage("a command is missing"));
    };
    match asked(first) {
        Some(Asked::Help) => return output.bytes(usage("").as_bytes()),
        Some(Asked::Version) => return output.bytes(version().as_bytes()),
        None => {}
    }
    let Some((command, rest)) = find(arguments) else {
        return run_group(arguments, output);
    };
    let arguments = Arguments::parse(command, rest)?;
    match arguments.asked {
        Some(Asked::Help) => output.bytes(help(command).as_bytes()),
        Some(Asked::Version) => output.bytes(version().as_bytes()),
        None => {
            output.json = arguments.has(JSON.name);
            (command.run)(&arguments, output)
        }
    }
}

/// The command that the first words name, and the arguments after them.
fn find(arguments: &[OsString]) -> Option<(&'static Command, &[OsString])> {
    COMMANDS.iter().find_map(|command| {
        let words = command.name.split(' ');
        let count = words.clone().count();
        let named =
            arguments.len() >= count && words.zip(arguments).all(|(word, given)| given == word);
        named.then(|| (command, &arguments[count..]))
    })
}

/// The first word is not a command by itself: the name of several, or of none.
fn run_group(arguments: &[OsString], output: &mut Output) -> Result<(), Failure> {
    let first = shown(&arguments[0]);
    let group = format!("{first} ");
    if !COMMANDS
        .iter()
        .any(|command| command.name.starts_with(&group))
    {
        return Err(Failure::usage(format!("there is no command {first}")));
    }
    match arguments.get(1).map(|word| (word, asked(word))) {
        Some((_, Some(Asked::Help))) => output.bytes(usage(&group).as_bytes()),
        Some((_, Some(Asked::Version))) => output.bytes(version().as_bytes()),
        Some((word, None)) => {
            let word = shown(word);
            Err(Failure::usage(format!(
                "there is no command {first} {word}"
            )))
        }
        None => Err(Failure::usage(format!("{first}: a second word is missing"))),
    }
}

fn version() -> String {
    format!("dwarnizza {}\n", env!("CARGO_PKG_VERSION"))
}

/// The commands whose names begin so.
fn usage(group: &str) -> String {
    let mut text = "usage: dwarnizza COMMAND [OPTION]... [OPERAND]...\n\n".to_string();
    for command in COMMANDS
        .iter()
        .filter(|command| command.name.starts_with(group))
    {
        text += &format!(
            "  {} {}\n      {}\n",
            command.name, command.operands, command.summary
        );
    }
    text + "\n\
        Each command has --help, -h, --version and --json. A FILE is a path; - is standard input;\n\
        -- ends the options. Answers go to standard output, one line each with tabs between the\n\
        fields, or as JSON lines. The exit status is 0 where all was answered, 1 where something\n\
        is absent, 2 where something was refused, 3 where a file could not be read or written, 64\n\
        where the arguments are wrong; the highest of several counts.\n"
}

/// What `--help` says of a command.
fn help(command: &Command) -> String {
    let mut text = format!("usage: dwarnizza {} {}\n\n", command.name, command.operands);
    text += &format!("{}\n\n", command.summary);
    for choice in command.options.iter().chain([&JSON]) {
        let value = choice
            .value
            .map(|value| format!(" {value}"))
            .unwrap_or_default();
        text += &format!("  {}{value}\n      {}\n", choice.name, choice.summary);
    }
    text += "  --help, -h\n      print this\n  --version\n      print the version of the program\n";
    if !command.help.is_empty() {
        text += &format!("\n{}\n", command.help);
    }
    text
}
