//! What a text looks like that is neither a file number nor a key, or a path that is absent: words
//! for a person, which decide nothing.

/// A kind of text, and what to say of it.
type Look = (fn(&str) -> bool, &'static str);

/// The kinds of any text; the first that fits counts.
const OF_ANY: [Look; 4] = [
    (
        is_formula,
        "it is a spreadsheet formula: export the values alone",
    ),
    (
        |text| text.starts_with('\''),
        "an apostrophe stands before it, with which spreadsheets mark text",
    ),
    (
        |text| text.contains('\0'),
        "it has zero bytes: is the file UTF-16? Save it as UTF-8",
    ),
    (
        |text| text.trim() != text,
        "there are blanks around it: take them away",
    ),
];

/// The kinds of what should be a file number or a key.
const OF_NUMBERS: [Look; 8] = [
    (
        is_scientific,
        "it looks like a number in scientific notation: format the column as text, and export again",
    ),
    (
        has_groups,
        "its digits stand in groups, as those of thousands: a number is written without a mark",
    ),
    (is_fraction, "it looks like a fraction"),
    (has_sign, "a sign stands before it"),
    (
        |text| text.starts_with("0x") || text.starts_with("0X"),
        "0x stands before it, which marks hex digits",
    ),
    (
        |text| text.chars().any(is_other_digit),
        "it has digits other than 0 to 9 of ASCII, such as full-width ones",
    ),
    (
        has_look_alikes,
        "it has a letter that looks like a digit: O for 0, l or I for 1?",
    ),
    (
        |text| text.contains(char::is_whitespace),
        "there are blanks in it",
    ),
];

/// The kinds of what should be a path.
const OF_PATHS: [Look; 6] = [
    (
        are_digits,
        "it is a number: a file number is sought without --path",
    ),
    (is_quoted, "there are quotes around it: take them away"),
    (
        |text| text.starts_with(SLASHES),
        "a slash stands before it: try the path without",
    ),
    (
        |text| text.trim_start_matches('.').starts_with(SLASHES),
        "dots stand before it: try the path without",
    ),
    (has_drive, "a drive stands before it: try the path without"),
    (
        |text| !text.contains(SLASHES) && !text.contains('.'),
        "it has neither a slash nor a dot: is it a path?",
    ),
];

const SLASHES: [char; 2] = ['/', '\\'];

/// What a text looks like that is neither a file number nor a key, where that can be told.
pub fn looks(text: &[u8]) -> Option<&'static str> {
    first_of(&OF_NUMBERS, text)
}

/// What a path looks like that no root file has, where that can be told.
pub fn path_looks(path: &[u8]) -> Option<&'static str> {
    first_of(&OF_PATHS, path)
}

/// The first kind that fits, of any text and then of these.
fn first_of(kinds: &[Look], text: &[u8]) -> Option<&'static str> {
    let text = String::from_utf8_lossy(text);
    let mut looks = OF_ANY.iter().chain(kinds);
    let look = looks.find(|(is, _)| is(&text));
    look.map(|(_, words)| *words)
}

fn is_formula(text: &str) -> bool {
    text.starts_with('=') || text.starts_with('@')
}

fn are_digits(text: &str) -> bool {
    !text.is_empty() && text.bytes().all(|byte| byte.is_ascii_digit())
}

fn unsigned(text: &str) -> &str {
    text.strip_prefix(['+', '-', '\u{2212}']).unwrap_or(text)
}

fn has_sign(text: &str) -> bool {
    unsigned(text) != text && unsigned(text).starts_with(|first: char| first.is_ascii_digit())
}

/// Such as `417.0` and `417,0`.
fn is_fraction(text: &str) -> bool {
    let parts = unsigned(text).split_once(['.', ',']);
    parts.is_some_and(|(whole, part)| are_digits(whole) && (part.is_empty() || are_digits(part)))
}

/// Such as `4.17E+2`.
fn is_scientific(text: &str) -> bool {
    let parts = unsigned(text).split_once(['e', 'E']);
    parts.is_some_and(|(number, power)| {
        (are_digits(number) || is_fraction(number)) && are_digits(unsigned(power))
    })
}

/// Such as `1,349,477`: groups of three digits behind the first.
fn has_groups(text: &str) -> bool {
    let mark = [',', '.', '\'', '_', ' ', '\u{a0}', '\u{2009}', '\u{202f}'];
    let mut groups = unsigned(text).split(mark);
    let first = groups
        .next()
        .is_some_and(|first| are_digits(first) && first.len() <= 3);
    let mut rest = groups.peekable();
    first && rest.peek().is_some() && rest.all(|group| are_digits(group) && group.len() == 3)
}

fn is_other_digit(letter: char) -> bool {
    !letter.is_ascii() && letter.is_numeric()
}

/// Such as `O417`.
fn has_look_alikes(text: &str) -> bool {
    let look_alike = |letter: char| matches!(letter, 'O' | 'o' | 'l' | 'I');
    let digit = |letter: char| letter.is_ascii_digit();
    text.contains(look_alike)
        && text.contains(digit)
        && text
            .chars()
            .all(|letter| look_alike(letter) || digit(letter))
}

/// Such as `"Interface"`.
fn is_quoted(text: &str) -> bool {
    text.strip_prefix('"')
        .is_some_and(|rest| rest.ends_with('"'))
}

/// Such as `C:`.
fn has_drive(text: &str) -> bool {
    let mut letters = text.chars();
    letters
        .next()
        .is_some_and(|first| first.is_ascii_alphabetic())
        && letters.next() == Some(':')
}
