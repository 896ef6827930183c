//! The command's arguments.

use std::path::PathBuf;
use std::str::FromStr;

pub const USAGE: &str = "\
usage: fuzz [--cases N] [--seed S] [--case I] [--threads T] [--keep DIR]
  --cases N    how many cases, from 0 on; 100000 if not given
  --seed S     what the cases depend on beside their numbers; 1321 if not given
  --case I     makes this case alone
  --threads T  as many as there are cores if not given
  --keep DIR   where the inputs of a case that failed are kept; target/fuzz if not given";

/// What is wanted.
#[derive(Debug, PartialEq, Eq)]
pub struct Arguments {
    pub cases: u64,
    pub seed: u64,
    pub case: Option<u64>,
    pub threads: Option<usize>,
    pub keep: PathBuf,
}

impl Default for Arguments {
    fn default() -> Self {
        Self {
            cases: 100_000,
            seed: 1321,
            case: None,
            threads: None,
            keep: PathBuf::from("target/fuzz"),
        }
    }
}

impl Arguments {
    /// Reads the arguments; none where help is wanted.
    pub fn parse(given: impl IntoIterator<Item = String>) -> Result<Option<Self>, String> {
        let mut arguments = Self::default();
        let mut given = given.into_iter();
        while let Some(option) = given.next() {
            if option == "--help" || option == "-h" {
                return Ok(None);
            }
            let mut value = || given.next().ok_or(format!("{option} has no value"));
            match option.as_str() {
                "--cases" => arguments.cases = number(&option, &value()?)?,
                "--seed" => arguments.seed = number(&option, &value()?)?,
                "--case" => arguments.case = Some(number(&option, &value()?)?),
                "--threads" => arguments.threads = Some(number(&option, &value()?)?),
                "--keep" => arguments.keep = value()?.into(),
                _ => return Err(format!("there is no option {option:?}")),
            }
        }
        match arguments.threads {
            Some(0) => Err("--threads: at least 1".to_string()),
            _ => Ok(Some(arguments)),
        }
    }
}

fn number<T: FromStr>(option: &str, text: &str) -> Result<T, String> {
    text.parse()
        .map_err(|_| format!("{option}: {text:?} is no number"))
}
