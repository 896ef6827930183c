//! Reads a C header.

use crate::declarations::{Declaration, Parameter};

/// The functions that a header declares. One with a body is no declaration.
pub fn declarations(header: &str) -> Vec<Declaration> {
    let tokens = tokens(&without_directives(&without_comments(header)));
    let is_function = |at: &usize| {
        tokens[*at].starts_with("dwarnizza_")
            && tokens[at + 1] == "("
            && tokens[close(&tokens, *at) + 1] == ";"
    };
    (0..tokens.len())
        .filter(is_function)
        .map(|at| declaration(&tokens, at))
        .collect()
}

/// The text without what stands between `/*` and `*/`.
fn without_comments(text: &str) -> String {
    let mut parts = text.split("/*");
    let first = parts.next().unwrap_or_default();
    let rest = parts.map(|part| part.split_once("*/").expect("a comment ends").1);
    [first].into_iter().chain(rest).collect()
}

/// The text without the lines of the preprocessor.
fn without_directives(text: &str) -> String {
    let joined = text.replace("\\\n", " ");
    let kept = joined
        .lines()
        .filter(|line| !line.trim_start().starts_with('#'));
    kept.flat_map(|line| [line, "\n"]).collect()
}

/// Words and signs.
fn tokens(text: &str) -> Vec<String> {
    let mut tokens: Vec<String> = Vec::new();
    let mut in_word = false;
    for sign in text.chars() {
        let of_word = sign.is_ascii_alphanumeric() || sign == '_';
        if of_word && in_word {
            let word = tokens.last_mut().expect("a word has begun");
            word.push(sign);
        } else if !sign.is_whitespace() {
            tokens.push(sign.to_string());
        }
        in_word = of_word;
    }
    tokens
}

/// The place of the next closing parenthesis.
fn close(tokens: &[String], from: usize) -> usize {
    let length = tokens[from..].iter().position(|token| token == ")");
    from + length.expect("a parenthesis is closed")
}

/// The declaration of the function whose name stands here.
fn declaration(tokens: &[String], at: usize) -> Declaration {
    let ends = |token: &String| [";", "{", "}"].contains(&token.as_str());
    let result = tokens[..at].iter().rposition(ends).map_or(0, |end| end + 1);
    let parameters = &tokens[at + 2..close(tokens, at)];
    Declaration {
        name: tokens[at].clone(),
        result: tokens[result..at].join(" "),
        parameters: parameters
            .split(|token| token == ",")
            .map(parameter)
            .collect(),
    }
}

/// A parameter: its name is the last word before a bracket or the end.
fn parameter(tokens: &[String]) -> Parameter {
    let end = tokens.iter().position(|token| token == "[");
    let (before, array) = tokens.split_at(end.unwrap_or(tokens.len()));
    let (name, of) = before.split_last().expect("a parameter has a name");
    Parameter {
        name: name.clone(),
        c_type: [of, array].concat().join(" "),
    }
}

/// A row of the header's table of refusals.
#[derive(Debug, PartialEq)]
pub struct Row {
    pub name: String,
    pub number: u32,
    pub words: String,
    /// What the place counts; empty where the number names none.
    pub place: String,
}

/// The header's table of refusals.
pub fn refusals(header: &str) -> Vec<Row> {
    let (_, table) = header
        .split_once("#define DWARNIZZA_REFUSALS(X) \\\n")
        .expect("the header has a table of refusals");
    table.lines().map_while(row).collect()
}

fn row(line: &str) -> Option<Row> {
    let fields = line
        .trim()
        .strip_prefix("X(DWARNIZZA_")?
        .trim_end_matches([' ', '\\']);
    let (name, fields) = fields.split_once(", ")?;
    let (number, texts) = fields.split_once(", ")?;
    let (words, place) = texts
        .strip_prefix('"')?
        .strip_suffix("\")")?
        .split_once("\", \"")?;
    Some(Row {
        name: name.into(),
        number: number.parse().ok()?,
        words: words.into(),
        place: place.into(),
    })
}

/// What a macro without parameters stands for.
pub fn constant<'a>(header: &'a str, name: &str) -> &'a str {
    let start = format!("#define {name} ");
    let mut values = header.lines().filter_map(|line| line.strip_prefix(&start));
    let value = values.next().expect("the header has this macro");
    assert_eq!(values.next(), None, "{name} is defined once");
    value
}
