//! Which blocks of a root file are searched, by flags.

use std::ffi::OsStr;

use crate::command::{Arguments, Choice, decimal};
use crate::name::{shown, shown_bytes};
use crate::status::Failure;

/// The option that says for which locales a root file is searched.
pub const LOCALE: Choice = Choice {
    name: "--locale",
    value: Some("LOCALES"),
    summary: "search the blocks of these locales: names such as enUS,deDE, or flags such as 0x22;\n      \
              without it those of all",
};

/// The option that leaves blocks out.
pub const WITHOUT: Choice = Choice {
    name: "--without",
    value: Some("FLAGS"),
    summary: "leave out the blocks that have one of these content flags, such as 0x80 (low violence)",
};

/// The names of the locale flags.
const LOCALES: [(&str, u32); 15] = [
    ("enUS", 0x2),
    ("koKR", 0x4),
    ("frFR", 0x10),
    ("deDE", 0x20),
    ("zhCN", 0x40),
    ("esES", 0x80),
    ("zhTW", 0x100),
    ("enGB", 0x200),
    ("enCN", 0x400),
    ("enTW", 0x800),
    ("esMX", 0x1000),
    ("ruRU", 0x2000),
    ("ptBR", 0x4000),
    ("itIT", 0x8000),
    ("ptPT", 0x10000),
];

/// The blocks of a root file that count.
#[derive(Clone, Copy)]
pub struct Masks {
    pub locale: u32,
    pub unwanted: u64,
}

impl Masks {
    /// By the options `--locale` and `--without`.
    pub fn of(arguments: &Arguments) -> Result<Self, Failure> {
        let locale = match arguments.value(LOCALE.name) {
            Some(text) => locales(text)?,
            None => u32::MAX,
        };
        let unwanted = match arguments.value(WITHOUT.name) {
            Some(text) => flags(text.as_encoded_bytes()).ok_or_else(|| {
                Failure::usage(format!(
                    "--without wants flags such as 0x80, not {}",
                    shown(text)
                ))
            })?,
            None => 0,
        };
        Ok(Self { locale, unwanted })
    }
}

/// Locales by names with commas between, or by their flags.
fn locales(text: &OsStr) -> Result<u32, Failure> {
    let mut locales = 0;
    for part in text.as_encoded_bytes().split(|&byte| byte == b',') {
        let named = LOCALES.iter().find(|(name, _)| name.as_bytes() == part);
        let by_flags = || flags(part).and_then(|flags| u32::try_from(flags).ok());
        locales |= named
            .map(|(_, flag)| *flag)
            .or_else(by_flags)
            .ok_or_else(|| {
                let names = LOCALES.map(|(name, _)| name).join(", ");
                let part = shown_bytes(part);
                Failure::usage(format!(
                    "--locale: {part} is no locale. They are {names}; flags are 0x2 or 2"
                ))
            })?;
    }
    Ok(locales)
}

/// Flags as `0x` and hex digits, or as a decimal number.
fn flags(text: &[u8]) -> Option<u64> {
    let Some(digits) = text.strip_prefix(b"0x") else {
        return decimal(text);
    };
    let digits = str::from_utf8(digits).ok()?;
    let plain = digits.bytes().all(|digit| digit.is_ascii_hexdigit());
    if plain {
        u64::from_str_radix(digits, 16).ok()
    } else {
        None
    }
}
