//! The name of an index beside the MD5 of its footer.

use std::collections::HashMap;
use std::ffi::{OsStr, OsString};
use std::path::Path;

use crate::command::Choice;
use crate::name::shown;
use crate::output::Output;
use crate::status::{Failure, Status};

pub const NAMES: Choice = Choice {
    name: "--names",
    value: None,
    summary: "compare the name of each index with the MD5 of its footer, which names an archive",
};

/// A file, and the name that its footer gives it.
pub struct Named {
    file: OsString,
    footer: String,
}

impl Named {
    pub fn new(file: &OsStr, footer: String) -> Self {
        Self {
            file: file.to_owned(),
            footer,
        }
    }

    /// Its name without folder and extension, in lower case.
    fn stem(&self) -> OsString {
        let stem = Path::new(&self.file).file_stem().unwrap_or_default();
        stem.to_ascii_lowercase()
    }
}

/// Says each file whose name is not that of its footer, and which file has its name; counts them.
pub fn compare(files: &[Named], output: &mut Output) -> Result<usize, Failure> {
    let holders: HashMap<OsString, &Named> = files.iter().map(|file| (file.stem(), file)).collect();
    let mut count = 0;
    for file in files.iter().filter(|file| file.stem() != *file.footer) {
        count += 1;
        let holder = holders.get(OsStr::new(&file.footer));
        let holder = holder.map(|holder| shown(&holder.file));
        let name = shown(&file.file);
        let footer = &file.footer;
        output.answer(
            "misnamed",
            &[
                ("file", name.as_str().into()),
                ("name", footer.as_str().into()),
                ("holder", holder.clone().into()),
            ],
        )?;
        let place = match holder {
            Some(holder) => format!("that name stands on {holder}, which is another file"),
            None => "no file here has that name".to_string(),
        };
        output.fail(&Failure::unfit(format!(
            "{name}: by its footer its name is {footer}.index; {place}"
        )));
        output.note(Status::Refused);
    }
    Ok(count)
}
