//! `root find --path` and `resolve --path`: every path comes back once, as it was given.

mod run;

use std::ffi::OsStr;
use std::fs;
use std::os::unix::ffi::OsStrExt;
use std::path::Path;

use run::{Run, copy_tree, folder, put, run, sample};
use second::name_hash::name_hash;
use second::root::{BlockParts, Header, NO_NAME_HASHES, Record};

const ICON: &str = r"Interface\Icons\INV_Sample_01.blp";
const ENGLISH: &str = "6667801fc2955e23a72749749811a86d";
const GERMAN: &str = "4c0ca7f12a7dce44aa1036f709c2dd3f";

/// The files of the sample build that `resolve` takes, with this root file.
fn build(root: &str) -> [&str; 8] {
    [
        "resolve",
        "--path",
        "--root",
        root,
        "--encoding",
        "encoding",
        "--index",
        "archives",
    ]
}

/// Finds the paths of a worklist of these bytes in the sample build's root file of version 2.
fn find(folder: &Path, list: impl AsRef<[u8]>, options: &[&str]) -> Run {
    let file = sample().join("root-v2");
    let file = file.to_str().expect("its name is text");
    put(folder, "list.csv", list);
    let find = ["root", "find", "--path", file, "--worklist", "list.csv"];
    run(folder, find.iter().chain(options))
}

/// A root file without a magic, of these records: how far each id is from the one before, its
/// content key and its path.
fn root_of(records: &[(i32, [u8; 16], &[u8])]) -> Vec<u8> {
    let records = records.iter().map(|(delta, key, path)| Record {
        delta: *delta,
        key: *key,
        name_hash: name_hash(path).expect("it is short").to_le_bytes(),
    });
    let block = BlockParts {
        locale: 2,
        content: 0,
        unknown: [0; 5],
        records: records.collect(),
    };
    second::root::write(None, &[block])
}

fn found(path: &str, row: &str) -> String {
    format!("found\t{path}\t417\t{ENGLISH}\t249\t{row}\n")
}

fn absent(path: &str, row: &str) -> String {
    format!("absent\t{path}\t{row}\n")
}

/// The texts that tell the icon's path.
const ICONS: [&str; 4] = [
    ICON,
    "Interface/Icons/INV_Sample_01.blp",
    r"interface\icons/inv_sample_01.blp",
    r"INTERFACE\ICONS\INV_SAMPLE_01.BLP",
];

#[test]
fn either_slash_and_either_case() {
    let find = ["root", "find", "--path", "root-v2"];
    let lines: String = ICONS.map(|path| found(path, "-")).concat();
    run(&sample(), find.iter().chain(&ICONS)).expect(0, &lines, &[]);
    // Nothing else is taken for the same.
    for path in [
        "Interface//Icons/INV_Sample_01.blp",
        "Interface/Icons/INV_Sample_01.blp ",
        "Interface/Icons/INV_Sample_01",
        "Interface/Icons/./INV_Sample_01.blp",
        "Interface/\u{131}cons/INV_Sample_01.blp",
    ] {
        let said = run(&sample(), find.iter().chain(&[path]));
        assert_eq!((said.lines, said.status), (absent(path, "-"), 1));
    }
}

#[test]
fn every_layout_with_its_places() {
    for (root, place) in [("root-v1", 220), ("root-short", 232), ("root-v2", 249)] {
        let line = format!("found\t{ICON}\t417\t{ENGLISH}\t{place}\t-\n");
        run(&sample(), ["root", "find", "--path", root, ICON]).expect(0, &line, &[]);
        let bytes = fs::read(sample().join(root)).expect("it is there");
        let key: String = bytes[place..][..16]
            .iter()
            .map(|byte| format!("{byte:02x}"))
            .collect();
        assert_eq!(key, ENGLISH);
    }
}

/// Which blocks are searched. That of the German files has name hashes without a magic alone.
#[test]
fn locales_and_content_flags() {
    let find = |root, option, path| run(&sample(), ["root", "find", "--path", root, option, path]);
    let german = find("root-v1", "--locale=deDE", ICON).lines;
    let begins = format!("found\t{ICON}\t417\t{GERMAN}\t");
    assert!(german.starts_with(&begins), "{german}");
    for root in ["root-short", "root-v2"] {
        find(root, "--locale=deDE", ICON).expect(1, &absent(ICON, "-"), &[]);
    }
    find("root-v2", "--locale=0x22", ICON).expect(0, &found(ICON, "-"), &[]);
    for root in ["root-v1", "root-short", "root-v2"] {
        let bones = r"Spells\Sample_Bones_01.m2";
        let said = find(root, "--without=0x40", bones).lines;
        assert!(said.contains("\t4294967295\t"), "{said}");
        find(root, "--without=0x80", bones).expect(1, &absent(bones, "-"), &[]);
    }
}

/// Where no block that counts has name hashes, every path is absent and numbers are found.
#[test]
fn blocks_without_name_hashes() {
    let folder = folder("path_no_hashes");
    let records = vec![Record {
        delta: 5,
        key: [7; 16],
        name_hash: [0; 8],
    }];
    let block = BlockParts {
        locale: 2,
        content: NO_NAME_HASHES,
        unknown: [0; 5],
        records,
    };
    let path = "a/b.c";
    for (a, b) in [(1, 0), (24, 1), (24, 2)] {
        let magic = *b"TSFM";
        let header = Some(Header { magic, a, b });
        let blocks = std::slice::from_ref(&block);
        put(&folder, "root", second::root::write(header, blocks));
        run(&folder, ["root", "find", "--path", "root", path]).expect(1, &absent(path, "-"), &[]);
        let said = run(&folder, ["root", "find", "root", "5"]);
        assert!(said.lines.starts_with("found\t5\t0707"), "{}", said.lines);
    }
    let help = run(&folder, ["root", "find", "--help"]).lines;
    let words = "may have no name hashes: their files are found by number only";
    assert!(help.contains(words), "{help}");
}

/// Paths of any bytes, and as answers show them: printable text as it is, and what else there may
/// be as names are shown. What is found is not judged.
const TOLD: [(&[u8], &str); 8] = [
    (b"A\tB.blp", r"A\tB.blp"),
    (b"say \"A\".blp", "say \"A\".blp"),
    (b"A\xff\xfe.blp", r"A\xff\xfe.blp"),
    (b"A\nB.blp", r"A\nB.blp"),
    ("\u{c4}rger/\u{d6}.blp".as_bytes(), "\u{c4}rger/\u{d6}.blp"),
    (b"A\\x41.blp", r"A\x41.blp"),
    (b"A\x01.blp", r"A\x01.blp"),
    (b" /A.blp ", " /A.blp "),
];

/// The lines of these paths, in a root file that has them all, with these rows.
fn told(rows: [&str; TOLD.len()]) -> String {
    let lines = (0..)
        .zip(TOLD)
        .zip(rows)
        .map(|((number, (_, shown)), row)| {
            let place = 12 + 4 * TOLD.len() + 24 * number;
            let key = "09".repeat(16);
            format!("found\t{shown}\t{number}\t{key}\t{place}\t{row}\n")
        });
    lines.collect()
}

#[test]
fn paths_are_told_as_they_are_given() {
    let folder = folder("path_told");
    put(
        &folder,
        "root",
        root_of(&TOLD.map(|(path, _)| (0, [9; 16], path))),
    );
    let find = ["root", "find", "--path", "root"].map(OsStr::new);
    let given = TOLD.map(|(path, _)| OsStr::from_bytes(path));
    run(&folder, find.iter().chain(&given)).expect(0, &told(["-"; 8]), &[]);
    let quoted = TOLD.map(|(path, _)| {
        let parts: Vec<_> = path.split(|byte| *byte == b'"').collect();
        [b"\"", &parts.join(&b"\"\""[..])[..], b"\"\n"].concat()
    });
    put(&folder, "list", quoted.concat());
    let worklist = ["--worklist", "list"].map(OsStr::new);
    let rows = told(["1", "2", "3", "4", "5", "6", "7", "8"]);
    let words = ["8 rows, no header: 8 found"];
    run(&folder, find.iter().chain(&worklist)).expect(0, &rows, &words);
}

/// The limit is the library's; the other rows are answered.
#[test]
fn paths_that_are_too_long() {
    let folder = folder("path_long");
    let [whole, long] = [1024, 1025].map(|length| "x".repeat(length - 4) + ".blp");
    let list = format!("{whole}\n{long}\n{ICON}\n");
    let lines = format!(
        "absent\t{whole}\t1\nrefused\t{long}\t2\t110\t0\n{}",
        found(ICON, "3")
    );
    let begin = "x".repeat(40);
    let why = format!("the path that begins with \"{begin}\" has 1025 bytes: refused 110: path");
    let words = [
        &format!("list.csv: column 1, row 2: {why}"),
        "3 rows, no header: 1 found, 1 absent, 0 unknown, 1 refused; 0 duplicate",
    ];
    find(&folder, list, &[]).expect(2, &lines, &words);
    let line = format!("refused\t{long}\t-\t110\t0\n");
    run(&sample(), ["root", "find", "--path", "root-v2", &long]).expect(2, &line, &[&why]);
    let resolved = run(&sample(), build("root-v2").iter().chain(&[&long[..]]));
    resolved.expect(2, &line, &[&why]);
}

/// An empty cell is a mistake, and not the empty path, though a root file may have its name hash.
#[test]
fn empty_paths() {
    let folder = folder("path_empty");
    let list = format!("id,path\n1,{ICON}\n2,\n\n3,\"\"\n4,{ICON}\n");
    let lines = found(ICON, "2") + "refused\t\t3\nrefused\t\t4\nrefused\t\t5\n" + &found(ICON, "6");
    let words = [
        "list.csv: column path, row 3: the path is empty\n",
        "list.csv: row 4: the row is empty\n",
        "list.csv: column path, row 5: the path is empty\n",
        "6 rows, row 1 is the header (id,path): 2 found, 0 absent, 0 unknown, 3 refused; 2 duplicate",
    ];
    find(&folder, list, &["--column=2"]).expect(2, &lines, &words);
    let lines = "refused\t\t1\nrefused\t\t2\n";
    find(&folder, "\n\n", &[]).expect(2, lines, &["2 rows, no header: 0 found"]);
    let empty = ["root", "find", "--path", "root-v2", "", ICON];
    let lines = "refused\t\t-\n".to_string() + &found(ICON, "-");
    run(&sample(), empty).expect(2, &lines, &["dwarnizza: the path is empty\n"]);
}

/// Absent paths that look odd, and what is said of them.
const ODD: [(&str, &str); 13] = [
    (" Interface/x.blp", "there are blanks around it"),
    ("Interface/x.blp ", "there are blanks around it"),
    ("/Interface/x.blp", "a slash stands before it"),
    (r"\Interface\x.blp", "a slash stands before it"),
    ("./Interface/x.blp", "dots stand before it"),
    (r"..\Interface\x.blp", "dots stand before it"),
    (r"C:\Interface\x.blp", "a drive stands before it"),
    ("\"Interface/x.blp\"", "there are quotes around it"),
    ("'Interface/x.blp'", "an apostrophe stands before it"),
    ("=A1", "it is a spreadsheet formula"),
    (
        "417",
        "it is a number: a file number is sought without --path",
    ),
    ("asset", "it has neither a slash nor a dot: is it a path?"),
    (ENGLISH, "it has neither a slash nor a dot: is it a path?"),
];

#[test]
fn absent_paths_that_look_odd() {
    let folder = folder("path_odd");
    for (path, words) in ODD {
        let words = format!("\"{path}\" is absent; {words}");
        run(&sample(), ["root", "find", "--path", "root-v2", path]).expect(
            1,
            &absent(path, "-"),
            &[&format!("dwarnizza: {words}")],
        );
        let list = format!("x/y.z\n\"{}\"\n", path.replace('"', "\"\""));
        let row = format!("dwarnizza: list.csv: column 1, row 2: {words}");
        let lines = absent("x/y.z", "1") + &absent(path, "2");
        find(&folder, list, &[]).expect(1, &lines, &[&row]);
    }
    let zeros = "I\0n\0/\0x\0";
    let said = find(&folder, format!("{ICON}\n{zeros}\n"), &[]);
    assert!(said.errors.contains("it has zero bytes"), "{}", said.errors);
    // A plain path that is absent has no words.
    run(&sample(), ["root", "find", "--path", "root-v2", "a/b.c"]).expect(
        1,
        "absent\ta/b.c\t-\n",
        &[],
    );
}

/// Words that a column of paths is called.
const HEADERS: [&str; 8] = [
    "path",
    "Path",
    "FILE",
    "FileName",
    "file name",
    "File Path",
    "name",
    "\"file_path\"",
];

/// Texts in row 1 that are sought.
const NO_HEADERS: [&str; 8] = [
    "Interface",
    "readme",
    " path",
    "path.txt",
    "paths/file",
    "asset path",
    "FileDataID",
    "x",
];

#[test]
fn headers() {
    let folder = folder("path_headers");
    for header in HEADERS {
        let words = format!("2 rows, row 1 is the header ({header}): 1 found");
        let list = format!("{header}\n{ICON}\n");
        find(&folder, list, &[]).expect(0, &found(ICON, "2"), &[&words]);
    }
}

#[test]
fn first_rows_that_are_sought() {
    let folder = folder("path_first");
    for first in NO_HEADERS {
        let list = format!("{first}\n{ICON}\n");
        let said = find(&folder, &list, &[]);
        let lines = absent(first, "1") + &found(ICON, "2");
        assert_eq!((said.lines, said.status), (lines, 1));
        let words = "2 rows, no header: 1 found, 1 absent";
        assert!(said.errors.contains(words), "{}", said.errors);
        let words = format!("2 rows, row 1 is the header ({first}): 1 found");
        let by_name = format!("--column-name={first}");
        let with = |option| find(&folder, &list, &[option]);
        with("--header").expect(0, &found(ICON, "2"), &[&words]);
        with(&by_name).expect(0, &found(ICON, "2"), &[&words]);
    }
    let said = find(&folder, "asset path\na/b.c\n", &[]);
    let words = "is it a path?; if row 1 is a header, --header says so";
    assert!(said.errors.contains(words), "{}", said.errors);
}

/// Lines of a number, a semicolon and a path, without a header.
#[test]
fn a_list_of_numbers_and_paths() {
    let folder = folder("path_listfile");
    let list = "417;interface/icons/inv_sample_01.blp\n5;interface/a,b.blp\n";
    let lines = found("interface/icons/inv_sample_01.blp", "1") + &absent("interface/a,b.blp", "2");
    let words = ["2 rows, no header: 1 found, 1 absent, 0 unknown, 0 refused; 0 duplicate"];
    find(&folder, list, &["--column=2", "--separator=;"]).expect(1, &lines, &words);
    // Without the separator nothing is guessed.
    let plain = "417;interface/icons/inv_sample_01.blp\n5;interface/a.blp\n";
    let hint = "all rows look separated by \";\": --separator ';' reads them so";
    find(&folder, plain, &["--column=2"]).expect(64, "", &["it has no column 2", hint]);
    let lines = plain.lines().zip(["1", "2"]);
    let lines: String = lines.map(|(line, row)| absent(line, row)).collect();
    let said = find(&folder, plain, &[]);
    said.expect(1, &lines, &[&format!("dwarnizza: list.csv: {hint}\n")]);
    assert_eq!(said.errors.lines().count(), 2, "{}", said.errors);
    let words = ["it has the columns \"417\", \"interface/icons/inv_sample_01.blp\": --column N"];
    find(&folder, plain, &["--separator=;"]).expect(64, "", &words);
}

/// A duplicate is a row whose path stood before it, with either slash and in either case.
#[test]
fn duplicates() {
    let folder = folder("path_duplicates");
    let rows = [&ICONS[..], &["x/y.z", r"X\Y.Z", "\u{e4}/y", "\u{c4}/y"]].concat();
    let list = format!("path\n{}\n", rows.join("\n"));
    let said = find(&folder, list, &[]);
    let words =
        "9 rows, row 1 is the header (path): 4 found, 4 absent, 0 unknown, 0 refused; 4 duplicate";
    assert!(said.errors.contains(words), "{}", said.errors);
    let lines: Vec<_> = said.lines.lines().collect();
    for (line, path) in lines.iter().zip(&rows) {
        assert_eq!(line.split('\t').nth(1), Some(*path));
    }
    assert_eq!(lines.len(), rows.len());
}

#[test]
fn json() {
    let folder = folder("path_json");
    let list = format!("path\n{ICON}\na/b.c\n\"\"\n");
    let said = find(&folder, list, &["--json"]);
    let lines = r#"{"answer":"found","path":"Interface\\Icons\\INV_Sample_01.blp","file_number":417,"content_key":"6667801fc2955e23a72749749811a86d","place":249,"row":2}
{"answer":"absent","path":"a/b.c","row":3}
{"answer":"refused","path":"","row":4,"words":"list.csv: column path, row 4: the path is empty"}
{"answer":"summary","rows":4,"header_row":1,"header":"path","found":1,"absent":1,"unknown":0,"refused":1,"duplicate":0}
"#;
    assert_eq!((said.lines, said.status), (lines.to_string(), 2));
    let resolved = run(&sample(), build("root-v2").iter().chain(&["--json", ICON]));
    let begins = r#"{"answer":"found","path":"Interface\\Icons\\INV_Sample_01.blp","file_number":417,"content_key":"6667801fc2955e23a72749749811a86d","key":"ae5da97c10327bc86eb33511688654da","size":134,"archive":null,"offset":0,"index":"#;
    assert!(resolved.lines.starts_with(begins), "{}", resolved.lines);
}

/// Every file of the sample build by its path: the answer is that of its number, with the path
/// before it.
#[test]
fn resolve_gives_what_the_number_gives() {
    let list = fs::read_to_string(sample().join("files.tsv")).expect("it is there");
    let rows = list.lines().skip(1);
    let files: Vec<Vec<_>> = rows.map(|row| row.split('\t').collect()).collect();
    for (root, locale) in [
        ("root-v1", "enUS"),
        ("root-v1", "deDE"),
        ("root-short", "enUS"),
        ("root-v2", "enUS"),
    ] {
        let files = || files.iter().filter(|file| file[1] == locale);
        let (files_of, of_locale) = (build(root), ["--locale", locale]);
        let resolve = files_of.iter().chain(&of_locale);
        let by_path = run(
            &sample(),
            resolve.clone().chain(files().map(|file| &file[7])),
        );
        let without = resolve.filter(|option| **option != "--path");
        let by_number = run(&sample(), without.chain(files().map(|file| &file[0])));
        assert_eq!(by_path.status, by_number.status);
        let lines = by_number.lines.lines().zip(files()).map(|(line, file)| {
            let (word, rest) = line.split_once('\t').expect("it has fields");
            let (number, behind) = rest.split_once('\t').expect("it has fields");
            assert_eq!(number, file[0]);
            let rest = if word == "found" { rest } else { behind };
            format!("{word}\t{}\t{rest}\n", file[7])
        });
        assert_eq!(by_path.lines, lines.collect::<String>());
    }
}

/// The links at which a path can be absent, and an index that cannot say so.
#[test]
fn resolve_through_all_links() {
    let [none, unknown, loose] = [
        "a/b.c",
        "creature/sample/sample_01.m2",
        "Creature/Sample/Sample_02.m2",
    ];
    let paths = [none, unknown, loose];
    let lines = format!(
        "absent\t{none}\troot\t-\nabsent\t{unknown}\tencoding\t-\nabsent\t{loose}\tindex\t-\n"
    );
    run(&sample(), build("root-v1").iter().chain(&paths)).expect(1, &lines, &[]);
    let mut damaged = build("root-v1").to_vec();
    damaged.extend(["--index", "damaged/page.index", loose, none]);
    let lines = format!(
        "refused\tdamaged/page.index\t6\t0\nunknown\t{loose}\tindex\t-\nabsent\t{none}\troot\t-\n"
    );
    run(&sample(), damaged).expect(2, &lines, &["refused 6 at 0"]);
    let said = run(&sample(), build("root-v1").iter().chain(&["/x"]));
    said.expect(
        1,
        "absent\t/x\troot\t-\n",
        &["\"/x\" is absent; a slash stands before it"],
    );
}

#[test]
fn resolve_answers_a_worklist_row_by_row() {
    let list = ["--worklist", "paths.csv", "--column-name", "path"];
    let said = run(&sample(), build("root-v2").iter().chain(&list));
    let words = "dwarnizza: 8 rows, row 1 is the header (name,path): 5 found, 2 absent, 0 unknown, 0 refused; 1 duplicate\n";
    assert_eq!((&said.errors[..], said.status), (words, 1));
    let answer = |line| {
        let fields: Vec<&str> = str::split(line, '\t').collect();
        (fields[0], fields[1], fields[2], fields[fields.len() - 1])
    };
    let answers: Vec<_> = said.lines.lines().map(answer).collect();
    let expected = [
        ("found", r"Interface\Icons\INV_Sample_01.blp", "417", "2"),
        ("found", "interface/icons/inv_sample_01.blp", "417", "3"),
        ("found", "Sound/Music/Sample/Track_07.mp3", "53189", "4"),
        (
            "found",
            r"WORLD\MAPS\SAMPLE\SAMPLE_30_10.ADT",
            "1349486",
            "5",
        ),
        ("absent", r"Creature\Sample\Sample_02.m2", "index", "6"),
        ("found", r"Spells\Sample_Blood_01.m2", "2147483647", "7"),
        (
            "absent",
            r"Interface\Icons\INV_Misc_QuestionMark.blp",
            "root",
            "8",
        ),
    ];
    assert_eq!(answers, expected);
}

fn key(text: &str) -> [u8; 16] {
    let digits = |at| u8::from_str_radix(&text[at..at + 2], 16);
    std::array::from_fn(|at| digits(2 * at).expect("it is hex"))
}

/// Two records of one number: the path's own is followed, and not the first of its number.
#[test]
fn a_path_is_followed_by_its_own_record() {
    let folder = folder("path_own");
    let encoding = fs::read(sample().join("encoding")).expect("it is there");
    put(&folder, "encoding", encoding);
    copy_tree(&sample().join("archives"), &folder.join("archives"));
    let records: [(i32, _, &[u8]); 2] = [
        (7, key(ENGLISH), b"first.blp"),
        (-1, key(GERMAN), b"second.blp"),
    ];
    put(&folder, "root", root_of(&records));
    let list = fs::read_to_string(sample().join("files.tsv")).expect("it is there");
    let row = list.lines().find(|row| row.contains(GERMAN));
    let fields: Vec<_> = row.expect("it is listed").split('\t').collect();
    let [_, _, content, key, size, offset, archive, _] = fields[..] else {
        panic!("a row has eight fields");
    };
    let line = format!(
        "found\tSECOND.blp\t7\t{content}\t{key}\t{size}\t-\t{offset}\tarchives/{archive}.index\t-\n"
    );
    run(&folder, build("root").iter().chain(&["SECOND.blp"])).expect(0, &line, &[]);
}

#[test]
fn wrong_usage() {
    run(&sample(), ["root", "find", "--path", "root-v2"]).expect(64, "", &["a path is missing"]);
    run(&sample(), build("root-v2")).expect(64, "", &["a path is missing"]);
    let twice = ["root", "find", "--path", "--path", "root-v2", ICON];
    run(&sample(), twice).expect(64, "", &["--path is given twice"]);
    let value = ["root", "find", "--path=x", "root-v2", ICON];
    run(&sample(), value).expect(64, "", &["--path takes no value"]);
    let other = ["encoding", "find", "--path", "encoding", ICON];
    run(&sample(), other).expect(64, "", &["there is no option --path"]);
}

/// A root file that is refused has its line alone, whatever is sought.
#[test]
fn a_refused_root_file() {
    let refused = "refused\troot-v1.blte\t40\t0\n";
    let find = ["root", "find", "--path", "root-v1.blte", ICON, ""];
    run(&sample(), find).expect(2, refused, &["BLTE envelope"]);
    let resolve = build("root-v1.blte");
    run(&sample(), resolve.iter().chain(&[ICON])).expect(2, refused, &["BLTE envelope"]);
}
