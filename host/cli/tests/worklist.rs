//! Worklists: every row of a list comes back once, and none is misread.

mod run;

use std::path::Path;

use forge::counted::{W4, index, key};
use run::{Run, folder, put, run, sample};

/// Finds the keys of a worklist of these bytes in an index of three entries.
fn find(folder: &Path, list: &[u8], options: &[&str]) -> Run {
    put(folder, "index", index(W4, 3, 0));
    put(folder, "list.csv", list);
    let find = ["index", "find", "--index", "index"];
    let list = ["--worklist", "list.csv"];
    run(folder, find.iter().chain(&list).chain(options))
}

/// Finds the file numbers of a worklist of these bytes in the sample build's root file.
fn root(folder: &Path, list: &[u8], options: &[&str]) -> Run {
    let file = sample().join("root-v1");
    let file = file.to_str().expect("its name is text");
    put(folder, "list.csv", list);
    let find = ["root", "find", file, "--worklist", "list.csv"];
    run(folder, find.iter().chain(options))
}

fn found(number: u32, row: usize) -> String {
    let (size, offset) = (7 + 3 * number, 5 * number);
    format!(
        "found\t{}\t{size}\t-\t{offset}\tindex\t{row}\n",
        key(number)
    )
}

fn absent(key: &str, row: usize) -> String {
    format!("absent\t{key}\t{row}\n")
}

/// What each line says: its word, its text and its row.
fn answers(lines: &str) -> Vec<(&str, &str, &str)> {
    let answer = |line| {
        let fields: Vec<&str> = str::split(line, '\t').collect();
        (fields[0], fields[1], fields[fields.len() - 1])
    };
    lines.lines().map(answer).collect()
}

#[test]
fn a_column_of_quoted_rows() {
    let folder = folder("worklist_quoted");
    let list = format!(
        "id,\"the, key\",note\r\n1,{},x\r\n\r\n2,\"{}\",\"two\r\nlines, \"\"quoted\"\"\"\r\n3,{},\r\n",
        key(0),
        key(1).to_uppercase(),
        key(9)
    );
    let lines = found(0, 2) + "refused\t\t3\n" + &found(1, 4) + &absent(&key(9), 5);
    let words = [
        "list.csv: row 3: the row is empty",
        "5 rows, row 1 is the header (id,\"the, key\",note): 2 found, 1 absent, 0 unknown, \
         1 refused; 0 duplicate",
    ];
    for column in [
        &["--column-name", "the, key"][..],
        &["--column=2", "--header"],
    ] {
        find(&folder, list.as_bytes(), column).expect(2, &lines, &words);
    }
    let json = find(
        &folder,
        list.as_bytes(),
        &["--column=2", "--json", "--header"],
    );
    let summary = "{\"answer\":\"summary\",\"rows\":5,\"header_row\":1,\
        \"header\":\"id,\\\"the, key\\\",note\",\"found\":2,\"absent\":1,\"unknown\":0,\
        \"refused\":1,\"duplicate\":0}\n";
    assert!(json.lines.ends_with(summary), "{}", json.lines);
}

/// Rows with a separator in a list of one column, and the fields that they have.
const CUT: [(&str, &str); 3] = [
    ("417,5", "2 fields by the separator \",\" (\"417\", \"5\")"),
    (
        "1,349,477",
        "3 fields by the separator \",\" (\"1\", \"349\", \"477\")",
    ),
    ("417,", "2 fields by the separator \",\" (\"417\", \"\")"),
];

/// A separator in a row of a list of one column cuts nothing off.
#[test]
fn a_separator_in_a_list_of_one_column() {
    let folder = folder("worklist_cut");
    for (row, fields) in CUT {
        let said = root(&folder, format!("417\n{row}\n418\n").as_bytes(), &[]);
        let answered = [
            ("found", "417", "1"),
            ("refused", row, "2"),
            ("found", "418", "3"),
        ];
        assert_eq!((answers(&said.lines), said.status), (answered.to_vec(), 2));
        for words in [
            &format!("the row has {fields}, and row 1 has 1"),
            "3 rows, no header: 2 found, 0 absent, 0 unknown, 1 refused",
        ] {
            assert!(said.errors.contains(words), "{}", said.errors);
        }
    }
    for first in ["417,418,419", "417,5", "FileDataID,name"] {
        let words = format!("it has the columns \"{}\":", first.replace(',', "\", \""));
        let said = root(&folder, first.as_bytes(), &[]);
        said.expect(
            64,
            "",
            &[&words, "--column N or --column-name NAME says which"],
        );
    }
}

/// Every kind of line end, and none behind the last row.
#[test]
fn line_ends() {
    let folder = folder("worklist_ends");
    for end in ["\n", "\r\n", "\r"] {
        let list = [key(0), key(1), key(2)].join(end);
        let lines = found(0, 1) + &found(1, 2) + &found(2, 3);
        for list in [list.clone(), list + end] {
            find(&folder, list.as_bytes(), &[]).expect(0, &lines, &["3 rows, no header: 3 found"]);
        }
    }
    let mixed = format!("{}\r{}\r\n\n{}", key(0), key(1), key(2));
    let lines = found(0, 1) + &found(1, 2) + "refused\t\t3\n" + &found(2, 4);
    find(&folder, mixed.as_bytes(), &[]).expect(2, &lines, &["row 3: the row is empty"]);
    let trailing = format!("{}\n\n", key(0));
    let lines = found(0, 1) + "refused\t\t2\n";
    find(&folder, trailing.as_bytes(), &[]).expect(2, &lines, &["row 2: the row is empty"]);
}

#[test]
fn a_list_without_rows() {
    let folder = folder("worklist_empty");
    for (list, options, words) in [
        ("", &[][..], "list.csv: it is empty, and has no row"),
        ("\u{feff}", &[], "list.csv: it is empty, and has no row"),
        (
            "ekey\n",
            &[],
            "row 1 is the header (ekey), and there is no other row",
        ),
        (
            "00\n",
            &["--header"],
            "row 1 is the header (00), and there is no other row",
        ),
        (
            "id,key",
            &["--column-name=key"],
            "row 1 is the header (id,key), and there is no other",
        ),
    ] {
        let refused = "refused\tlist.csv\t-\t-\n";
        find(&folder, list.as_bytes(), options).expect(2, refused, &[words]);
    }
    find(&folder, b"\n", &[]).expect(
        2,
        "refused\t\t1\n",
        &["row 1: the row is empty", "1 row, no"],
    );
}

/// A number is a position, even where a field of the first row reads so.
#[test]
fn columns_by_position() {
    let folder = folder("worklist_position");
    let said = root(&folder, b"2,418\n3,419\n", &["--column", "2"]);
    let answered = [("found", "418", "1"), ("found", "419", "2")];
    assert_eq!((answers(&said.lines), said.status), (answered.to_vec(), 0));
    let said = root(&folder, b"2,418\n3,419\n", &["--column-name", "2"]);
    let answered = [("absent", "3", "2")];
    assert_eq!((answers(&said.lines), said.status), (answered.to_vec(), 1));
    assert!(
        said.errors.contains("2 rows, row 1 is the header (2,418)"),
        "{}",
        said.errors
    );
}

/// The first row of a list of two columns, an option, and what is wrong.
const NO_COLUMNS: [(&str, &[&str], &str); 10] = [
    (
        "a,b",
        &[],
        "list.csv: it has the columns \"a\", \"b\": --column N",
    ),
    (
        "a,b",
        &["--column-name=c"],
        "list.csv: it has no column c; it has \"a\", \"b\"",
    ),
    (
        "a,b",
        &["--column-name=1"],
        "list.csv: it has no column 1; it has \"a\", \"b\"",
    ),
    (
        "a,b",
        &["--column=3"],
        "it has no column 3; it has \"a\", \"b\"",
    ),
    ("a,b", &["--column=0"], "--column counts from 1"),
    (
        "a,b",
        &["--column=b"],
        "--column wants a number, not b; --column-name takes",
    ),
    ("a,b", &["--column=01"], "--column wants a number, not 01"),
    (
        "a,a",
        &["--column-name=a"],
        "has two columns a: --column N says",
    ),
    ("\na,b", &["--column-name=a"], "it has no column a"),
    (
        "a,b",
        &["--column=1", "--column-name=a"],
        "--column and --column-name are both given",
    ),
];

#[test]
fn columns_that_are_not_there() {
    let folder = folder("worklist_columns");
    for (first, options, words) in NO_COLUMNS {
        let list = format!("{first}\n1,{}\n", key(1));
        find(&folder, list.as_bytes(), options).expect(64, "", &[words]);
    }
    for option in ["--column=1", "--column-name=a", "--header", "--separator=;"] {
        let name = option.split('=').next().expect("it has a name");
        let words = format!("{name} wants --worklist beside it");
        run(&folder, ["index", "find", "--index", "index", option]).expect(64, "", &[&words]);
    }
}

/// Texts that are no file numbers, and no headers either.
const NEAR_NUMBERS: [&str; 14] = [
    "O417",
    "417 ",
    "41 7",
    "l349477",
    " 417",
    "00417",
    "deadbeef",
    "face",
    "cafe",
    "+417",
    "-1",
    "x417",
    "4.17E+2",
    "Schl\u{fc}ssel",
];

/// A first row that is nearly a number or a key is a row, and refused.
#[test]
fn a_first_row_that_is_none_of_a_header() {
    let folder = folder("worklist_first");
    for text in NEAR_NUMBERS {
        let said = root(&folder, format!("{text}\n417\n").as_bytes(), &[]);
        let answered = [("refused", text, "1"), ("found", "417", "2")];
        assert_eq!((answers(&said.lines), said.status), (answered.to_vec(), 2));
        assert!(
            said.errors.contains("2 rows, no header: 1 found"),
            "{}",
            said.errors
        );
    }
    let (whole, short) = (key(1), &key(1)[1..]);
    let blank = format!("{whole} ");
    for text in [short, &blank, &format!("{short}g"), &format!("l{short}")] {
        let said = find(&folder, format!("{text}\n{whole}\n").as_bytes(), &[]);
        said.expect(
            2,
            &format!("refused\t{text}\t1\n{}", found(1, 2)),
            &["2 rows, no header"],
        );
    }
    let said = find(&folder, b"O417", &[]);
    assert!(
        said.errors
            .contains("if row 1 is a header, --header says so"),
        "{}",
        said.errors
    );
}

/// A plain word is a header, and the summary says so.
#[test]
fn headers() {
    let folder = folder("worklist_headers");
    for header in [
        "FileDataID",
        "file_number",
        "ckey",
        "encoding key",
        "Key",
        "id",
        "EKey",
        "file.1",
        "\"Key\"",
    ] {
        let words = format!("2 rows, row 1 is the header ({header}): 1 found");
        let list = format!("{header}\n{}\n", key(1));
        find(&folder, list.as_bytes(), &[]).expect(0, &found(1, 2), &[&words]);
    }
    let any = format!("{}\n{}\n", key(0), key(1));
    let words = format!("2 rows, row 1 is the header ({}): 1 found", key(0));
    find(&folder, any.as_bytes(), &["--header"]).expect(0, &found(1, 2), &[&words]);
    let malformed = format!("\"a\"b\n{}\n", key(1));
    let refused = "refused\tlist.csv\t-\t-\n";
    let words = ["list.csv: row 1, the header, is malformed"];
    find(&folder, malformed.as_bytes(), &["--header"]).expect(2, refused, &words);
}

/// Rows with another number of fields than the first, and malformed ones.
#[test]
fn rows_of_another_shape() {
    let folder = folder("worklist_shape");
    let [zero, one, two] = [key(0), key(1), key(2)];
    let list =
        format!("id,key\n0,{zero}\n1\n1,{one},x\n1,\"{one}\"x\n\n2,{two}\n3,\"{two}\n4,{one}\n");
    let lines = found(0, 2)
        + "refused\t1\t3\n"
        + &format!("refused\t1,{one},x\t4\nrefused\t1,\"{one}\"x\t5\nrefused\t\t6\n")
        + &found(2, 7)
        + &format!("refused\t3,\"{two}\t8\n")
        + &found(1, 9);
    let after = list.find("\"x\n").expect("it is there") + 1;
    let open = list.rfind('"').expect("it is there");
    let words = [
        "list.csv: row 3: the row has 1 field by the separator \",\" (\"1\"), and row 1 has 2",
        "row 4: the row has 3 fields",
        &format!("row 5: the row is malformed: \"x\" follows a closing quote, at byte {after}"),
        "row 6: the row is empty",
        &format!(
            "row 8: the row is malformed: the quoted field that begins at byte {open} is never"
        ),
        "9 rows, row 1 is the header (id,key): 3 found, 0 absent, 0 unknown, 5 refused; 0 duplicate",
    ];
    find(&folder, list.as_bytes(), &["--column=2"]).expect(2, &lines, &words);
    // The first row that can be read is the one that others are held against.
    let list = format!("\n\"0\"0,{zero}\n0,{zero}\n1\n");
    let lines = format!(
        "refused\t\t1\nrefused\t\"0\"0,{zero}\t2\n{}refused\t1\t4\n",
        found(0, 3)
    );
    let words = ["row 4: the row has 1 field by the separator \",\" (\"1\"), and row 3 has 2"];
    find(&folder, list.as_bytes(), &["--column=2"]).expect(2, &lines, &words);
    let open = format!("\"{one}\n{one}\n");
    let lines = format!("refused\t\"{one}\t1\n{}", found(1, 2));
    find(&folder, open.as_bytes(), &[]).expect(2, &lines, &["begins at byte 0 is never closed"]);
}

/// A short key is never padded and never a number; the rest is still answered.
#[test]
fn rows_that_are_no_keys() {
    let folder = folder("worklist_refused");
    let long = key(1) + "0";
    let spoilt = key(1).replace("abc", "abg");
    let rows = ["00417", "417", "", &long, &spoilt, " x", "4.17E+05"];
    let mut list = format!("id,key\n0,{}\n", key(0));
    let mut lines = found(0, 2);
    for (row, text) in (3..).zip(rows) {
        list += &format!("1,{text}\n");
        lines += &format!("refused\t{text}\t{row}\n");
    }
    list += &format!("2,{}\n3,{}\n", key(2), key(0).to_uppercase());
    lines += &(found(2, 10) + &found(0, 11));
    let words = [
        "list.csv: column key, row 3: \"00417\" has 5 characters, a key has 32",
        "row 4: \"417\" has 3 characters, a key has 32; is it a file number?",
        "row 5: it is empty, a key has 32 characters",
        "has 33 characters, a key has 32",
        "is no key: refused 61 at 31: not a hex digit",
        "row 8: \" x\" has 2 characters, a key has 32; there are blanks around it",
        "row 9: \"4.17E+05\" has 8 characters, a key has 32; it looks like a number in scientific",
        "11 rows, row 1 is the header (id,key): 3 found, 0 absent, 0 unknown, 7 refused; 1 duplicate",
    ];
    let refused = find(&folder, list.as_bytes(), &["--column-name", "key"]);
    refused.expect(2, &lines, &words);
    let json = find(&folder, list.as_bytes(), &["--column=2", "--json"]).lines;
    let object = r#"{"answer":"refused","text":"00417","row":3,"words":"list.csv: column key, row 3: \"00417\" has 5 characters, a key has 32"}"#;
    assert!(json.contains(object), "{json}");
}

/// Fields that are no file numbers, their text as answers show it, and the words why.
const NO_NUMBERS: [(&str, &str, &str); 22] = [
    (
        "=\"00417\"",
        "=\"00417\"",
        "\"=\" is no digit; it is a spreadsheet formula",
    ),
    (
        "\"=\"\"00417\"\"\"",
        "=\"00417\"",
        "it is a spreadsheet formula",
    ),
    ("'00417", "'00417", "an apostrophe stands before it"),
    (
        "4.17E+2",
        "4.17E+2",
        "scientific notation: format the column as text",
    ),
    ("4,17e5", "4,17e5", "the row has 2 fields"),
    (
        "\"1,349,477\"",
        "1,349,477",
        "\",\" is no digit; its digits stand in groups",
    ),
    ("1.349.477", "1.349.477", "its digits stand in groups"),
    ("417.0", "417.0", "it looks like a fraction"),
    (" 417", " 417", "there are blanks around it"),
    ("417 ", "417 ", "there are blanks around it"),
    ("\"417\t\"", "417\\t", "there are blanks around it"),
    ("41 7", "41 7", "there are blanks in it"),
    (
        "00417",
        "00417",
        "leading zero: a file number has none; is it a key?",
    ),
    ("+417", "+417", "a sign stands before it"),
    ("-1", "-1", "a sign stands before it"),
    ("0x1A1", "0x1A1", "0x stands before it"),
    (
        "\u{ff14}\u{ff11}\u{ff17}",
        "\u{ff14}\u{ff11}\u{ff17}",
        "such as full-width ones",
    ),
    ("O417", "O417", "it has a letter that looks like a digit"),
    ("4294967296", "4294967296", "it is above 4294967295"),
    ("\"\"", "", "it is empty, and no file number"),
    (
        "4\u{0}1\u{0}",
        "4\\x001\\x00",
        "it has zero bytes: is the file UTF-16?",
    ),
    ("42x", "42x", "\"42x\" is no file number: \"x\" is no digit"),
];

/// What is no file number is refused with the words why.
#[test]
fn rows_that_are_no_file_numbers() {
    let folder = folder("worklist_numbers");
    for (field, text, words) in NO_NUMBERS {
        let said = root(&folder, format!("417\n{field}\n418\n").as_bytes(), &[]);
        let answered = [
            ("found", "417", "1"),
            ("refused", text, "2"),
            ("found", "418", "3"),
        ];
        assert_eq!((answers(&said.lines), said.status), (answered.to_vec(), 2));
        assert!(said.errors.contains(words), "{}", said.errors);
    }
}

/// What separates, and how it is given.
const SEPARATORS: [(&str, &str); 8] = [
    (",", ","),
    (";", ";"),
    ("|", "|"),
    ("\t", "tab"),
    ("\t", "\t"),
    (" ", " "),
    ("0", "0"),
    ("\u{1}", "\u{1}"),
];

#[test]
fn separators() {
    let folder = folder("worklist_separators");
    let [zero, one] = [key(0), key(1)];
    let lines = found(0, 1) + &found(1, 2);
    for (separator, given) in SEPARATORS {
        let list = format!("\"x\"{separator}\"{zero}\"\n\"y\"{separator}\"{one}\"\n");
        let options = ["--column=2", "--separator", given];
        find(&folder, list.as_bytes(), &options).expect(0, &lines, &["2 rows, no header: 2 found"]);
    }
    // A tab separates where the first row has one and no comma.
    let tabs = format!("id\tkey\n1,5\t{one}\n");
    let by_name = ["--column-name=key"];
    find(&folder, tabs.as_bytes(), &by_name).expect(0, &found(1, 2), &["2 rows, row 1"]);
    let both = format!("id\t1,{zero}\nid,{one}\n");
    find(&folder, both.as_bytes(), &["--column=2"]).expect(0, &lines, &["2 rows"]);
}

/// Separators that are none, and the words why.
const NO_SEPARATORS: [(&str, &str); 6] = [
    (
        "\"",
        "\" cannot stand between fields, nor can a quote, CR or LF: refused 11",
    ),
    ("\n", "\\n cannot stand between fields"),
    ("\r", "\\r cannot stand between fields"),
    (
        "",
        "--separator wants one character of one byte, or tab, not ",
    ),
    (
        ",,",
        "--separator wants one character of one byte, or tab, not ,,",
    ),
    (
        "\u{a7}",
        "--separator wants one character of one byte, or tab, not \u{a7}",
    ),
];

#[test]
fn separators_that_are_none() {
    let folder = folder("worklist_no_separators");
    for (given, words) in NO_SEPARATORS {
        find(&folder, b"x", &["--separator", given]).expect(64, "", &[words]);
    }
}

/// Where all rows look separated by another byte, the words say so.
#[test]
fn a_hint_of_another_separator() {
    let folder = folder("worklist_hint");
    for (separator, given, named) in [(";", "';'", "\";\""), ("|", "'|'", "\"|\"")] {
        let list = format!("417{separator}x\n418{separator}\"y\nz\"\n");
        let hint = format!("all rows look separated by {named}: --separator {given} reads them so");
        let said = root(&folder, list.as_bytes(), &[]);
        assert_eq!(
            (answers(&said.lines).len(), said.status),
            (3, 2),
            "{}",
            said.lines
        );
        assert_eq!(said.errors.matches(&hint).count(), 3, "{}", said.errors);
        let said = root(&folder, list.as_bytes(), &["--column=2"]);
        said.expect(64, "", &["it has no column 2", &hint]);
        let said = root(&folder, list.as_bytes(), &["--column-name=x"]);
        said.expect(64, "", &["it has no column x", &hint]);
    }
}

#[test]
fn hints_of_other_separators() {
    let folder = folder("worklist_hints");
    for (list, given, words) in [
        ("417\tx\n418\ty\n", ",", "by a tab: --separator tab reads"),
        ("417,x\n418,y\n\n", ";", "by \",\": --separator ',' reads"),
    ] {
        let said = root(&folder, list.as_bytes(), &["--separator", given]);
        assert!(said.errors.contains(words), "{}", said.errors);
    }
    // Not all rows have as many.
    for list in ["417;x\n418\n", "417;x\n418;y;z\n", "417\n418 \n"] {
        let said = root(&folder, list.as_bytes(), &[]);
        assert!(!said.errors.contains("--separator"), "{}", said.errors);
    }
}

#[test]
fn marks_of_encodings() {
    let folder = folder("worklist_marks");
    let utf_16 = |list: &str, bytes: fn(u16) -> [u8; 2]| -> Vec<u8> {
        list.encode_utf16().flat_map(bytes).collect()
    };
    let utf_32 = |list: &str, bytes: fn(u32) -> [u8; 4]| -> Vec<u8> {
        list.chars()
            .flat_map(|letter| bytes(letter.into()))
            .collect()
    };
    let list = format!("\u{feff}{}\n", key(1));
    for (bytes, name) in [
        (utf_16(&list, u16::to_le_bytes), "UTF-16, little-endian"),
        (utf_16(&list, u16::to_be_bytes), "UTF-16, big-endian"),
        (utf_32(&list, u32::to_le_bytes), "UTF-32, little-endian"),
        (utf_32(&list, u32::to_be_bytes), "UTF-32, big-endian"),
    ] {
        let words = format!("list.csv: by its first bytes it is {name}: save it as UTF-8");
        find(&folder, &bytes, &[]).expect(2, "refused\tlist.csv\t-\t-\n", &[&words]);
    }
    let words = [
        "list.csv: it begins with the byte-order mark of UTF-8",
        "1 row, no header",
    ];
    find(&folder, list.as_bytes(), &[]).expect(0, &found(1, 1), &words);
    // Places count the mark too.
    let open = format!("{list}\"x\n");
    let at = open.len() - 3;
    let lines = found(1, 1) + "refused\t\"x\t2\n";
    let words = format!("begins at byte {at} is never closed");
    find(&folder, open.as_bytes(), &[]).expect(2, &lines, &[&words]);
}

/// What no index has is unknown where an index could not be searched.
#[test]
fn unknown_rows() {
    let folder = folder("worklist_unknown");
    put(&folder, "bad", "short");
    let list = format!("{}\n{}\n00417\n\n", key(1), key(9));
    let rest = format!("unknown\t{}\t2\nrefused\t00417\t3\nrefused\t\t4\n", key(9));
    let words = ["4 rows, no header: 1 found, 0 absent, 1 unknown, 2 refused; 0 duplicate"];
    let bad = find(&folder, list.as_bytes(), &["--index", "bad"]);
    bad.expect(2, &(found(1, 1) + "refused\tbad\t1\t0\n" + &rest), &words);
    let missing = find(&folder, list.as_bytes(), &["--index", "missing"]);
    missing.expect(3, &(found(1, 1) + "failed\tmissing\n" + &rest), &words);
    let all = ["index", "find", "--index", "bad", "--worklist", "list.csv"];
    let lines = format!("refused\tbad\t1\t0\nunknown\t{}\t1\n{rest}", key(1));
    let words = ["4 rows, no header: 0 found, 0 absent, 2 unknown, 2 refused; 0 duplicate"];
    run(&folder, all).expect(2, &lines, &words);
}

/// The four commands count rows and duplicates by one rule.
#[test]
fn all_commands_take_worklists() {
    let sample = sample();
    let counts = |command: &str, column: &str| {
        let list = [
            "--worklist",
            "worklist.csv",
            "--column-name",
            column,
            "--json",
        ];
        let said = run(&sample, command.split(' ').chain(list)).lines;
        let summary = said.lines().last().expect("it has a summary").to_string();
        let words: Vec<_> = summary.split(",\"found\"").map(str::to_string).collect();
        assert!(words[0].ends_with("\"rows\":22,\"header_row\":1,\"header\":\"name,file,key\""));
        assert_eq!(said.lines().count(), 22, "{said}");
        words[1].clone()
    };
    let build = "--root root-v1 --encoding encoding --index archives";
    let resolved = counts(&format!("resolve {build}"), "file");
    assert_eq!(
        resolved,
        ":13,\"absent\":2,\"unknown\":0,\"refused\":6,\"duplicate\":1}"
    );
    assert_eq!(counts("root find root-v1", "file"), resolved);
    for (command, column) in [
        ("root find root-v1", "file"),
        ("index find --index archives", "key"),
        ("encoding find --encoding-keys encoding", "key"),
    ] {
        assert_eq!(counts(command, column), resolved, "{command}");
    }
}

#[test]
fn lists_that_cannot_be_read() {
    let folder = folder("worklist_missing");
    put(&folder, "index", index(W4, 3, 0));
    let missing = ["index", "find", "--index", "index", "--worklist", "missing"];
    run(&folder, missing).expect(3, "failed\tmissing\n", &["cannot read missing"]);
}
