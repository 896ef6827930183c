//! The fuzzer's command.

mod arguments;

use std::io::{self, IsTerminal, Write};
use std::num::NonZero;
use std::process::ExitCode;
use std::thread;

use arguments::{Arguments, USAGE};
use fuzz::compare::Comparison;
use fuzz::counts::Counts;
use fuzz::keep::keep_inputs;
use fuzz::run::{self, Failed, Failure};

/// From this number of cases on, every refusal must have been reached.
const ALL_REACHED: u64 = 100_000;

/// The exit status after wrong usage.
const WRONG_USAGE: u8 = 64;

fn main() -> ExitCode {
    let arguments = match Arguments::parse(std::env::args().skip(1)) {
        Ok(Some(arguments)) => arguments,
        Ok(None) => {
            println!("{USAGE}");
            return ExitCode::SUCCESS;
        }
        Err(wrong) => {
            eprintln!("fuzz: {wrong}\n{USAGE}");
            return ExitCode::from(WRONG_USAGE);
        }
    };
    let result = match arguments.case {
        Some(case) => one_case(arguments.seed, case),
        None => all_cases(&arguments),
    };
    let (text, good) = match result {
        Ok(counts) => report(&arguments, &counts),
        Err(failed) => (report_failed(&arguments, &failed), false),
    };
    match io::stdout().write_all(text.as_bytes()) {
        Ok(()) if good => ExitCode::SUCCESS,
        Ok(()) => ExitCode::FAILURE,
        Err(error) => {
            eprintln!("fuzz: standard output: {error}");
            ExitCode::FAILURE
        }
    }
}

fn one_case(seed: u64, case: u64) -> Result<Counts, Failed> {
    let mut comparison = Comparison::default();
    run::one(seed, case, &mut comparison)?;
    Ok(comparison.counts)
}

fn all_cases(arguments: &Arguments) -> Result<Counts, Failed> {
    let Arguments { seed, cases, .. } = *arguments;
    let threads = thread::available_parallelism().map_or(1, NonZero::get);
    let threads = arguments.threads.unwrap_or(threads);
    let shown = io::stderr().is_terminal();
    let result = run::all(seed, cases, threads, &|made| {
        if shown {
            eprint!("\r{}%", made * 100 / cases);
        }
    });
    if shown {
        eprint!("\r    \r");
    }
    result
}

/// The counts, and whether a long run reached what it should.
fn report(arguments: &Arguments, counts: &Counts) -> (String, bool) {
    let Arguments { seed, cases, .. } = *arguments;
    let made = match arguments.case {
        Some(case) => format!("Case {case}"),
        None => format!("{cases} cases"),
    };
    let text = format!("{made} of seed {seed}: no difference.\n\n{counts}");
    if arguments.case.is_some() || cases < ALL_REACHED {
        return (text, true);
    }
    let not_reached = counts.not_reached();
    for (export, refusal) in &not_reached {
        match refusal {
            0 => eprintln!("fuzz: {export} never answered"),
            _ => eprintln!("fuzz: {export} never refused with {refusal}"),
        }
    }
    (text, not_reached.is_empty())
}

/// The case that failed, and where its inputs are kept.
fn report_failed(arguments: &Arguments, Failed { case, failure }: &Failed) -> String {
    let Arguments { seed, ref keep, .. } = *arguments;
    let mut text = format!("seed {seed}, case {case}\n{failure}\n");
    if let Failure::Difference(difference) = failure {
        match keep_inputs(difference, keep, seed, *case) {
            Ok(paths) => {
                let kept = paths
                    .iter()
                    .map(|path| format!("kept: {}\n", path.display()));
                text.extend(kept);
            }
            Err(error) => eprintln!("fuzz: nothing kept in {}: {error}", keep.display()),
        }
    }
    text + &format!("again: --seed {seed} --case {case}\n")
}
