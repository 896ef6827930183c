//! Reads the declarations of C functions in Rust.

use crate::declarations::{Declaration, Parameter};

/// The functions that the `extern` block of a file declares.
pub fn declarations(file: &str) -> Vec<Declaration> {
    let (_, block) = file
        .split_once("unsafe extern \"C\" {\n")
        .expect("the file has a block of declarations");
    let (block, _) = block.split_once("\n}").expect("the block ends");
    let code: Vec<&str> = block
        .lines()
        .map(|line| line.split("//").next().unwrap_or_default().trim())
        .collect();
    let code = code.join(" ");
    let mut items = code.split("pub ");
    let before = items.next().unwrap_or_default();
    assert_eq!(before.trim(), "", "nothing stands before the first item");
    items.map(declaration).collect()
}

/// The declaration of an item, given without its `pub`.
fn declaration(item: &str) -> Declaration {
    let function = item.strip_prefix("safe ").unwrap_or(item);
    let function = function.strip_prefix("fn ").expect("an item is a function");
    let (name, rest) = function.split_once('(').expect("it has parameters");
    let (parameters, result) = rest.split_once(") -> ").expect("it has a result");
    let result = result.trim().strip_suffix(';').expect("it ends");
    Declaration {
        name: name.into(),
        result: c_type(result),
        parameters: parameters
            .split(',')
            .map(str::trim)
            .filter(|parameter| !parameter.is_empty())
            .map(parameter)
            .collect(),
    }
}

fn parameter(parameter: &str) -> Parameter {
    let (name, of) = parameter.split_once(": ").expect("a parameter has a type");
    Parameter {
        name: name.into(),
        c_type: c_type(of),
    }
}

/// The C type that a Rust type stands for.
fn c_type(rust: &str) -> String {
    if let Some(of) = rust.strip_prefix("&mut ").or(rust.strip_prefix("*mut ")) {
        pointer(of)
    } else if let Some(of) = rust.strip_prefix('&').or(rust.strip_prefix("*const ")) {
        format!("const {}", pointer(of))
    } else {
        scalar(rust).into()
    }
}

/// The C type of a pointer to this Rust type. An array is one of its elements.
fn pointer(of: &str) -> String {
    let array = of.strip_prefix('[').and_then(|of| of.strip_suffix(']'));
    match array.and_then(|array| array.split_once("; ")) {
        Some((element, length)) => format!("{} [ {length} ]", scalar(element)),
        None => format!("{} *", scalar(of)),
    }
}

fn scalar(rust: &str) -> &'static str {
    match rust {
        "u8" => "uint8_t",
        "u32" => "uint32_t",
        "u64" => "uint64_t",
        "usize" => "size_t",
        other => panic!("no C type is known for {other}"),
    }
}
