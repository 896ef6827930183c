//! `dwarnizza resolve`, on the sample build.

mod run;

use std::fs;

use forge::counted;
use run::{dwarnizza, expect, folder, output, sample};

/// The options that name the files, with this root file and these indexes.
fn build<'a>(root: &'a str, index: &'a str) -> Vec<&'a str> {
    vec![
        "resolve",
        "--root",
        root,
        "--encoding",
        "encoding",
        "--index",
        index,
    ]
}

/// The file numbers of the sample build, by their fields.
fn list() -> Vec<Vec<String>> {
    let text = fs::read_to_string(sample().join("files.tsv")).expect("it is there");
    let lines = text.lines().skip(1);
    lines
        .map(|line| line.split('\t').map(str::to_string).collect())
        .collect()
}

/// The lines that the list tells, of an index of each archive or of all.
fn lines(locale: &str, group: Option<&str>) -> (Vec<String>, String) {
    let config = fs::read_to_string(sample().join("cdn-config")).expect("it is there");
    let archives = config.lines().next().expect("it names the archives");
    let archives: Vec<_> = archives.split(' ').skip(2).collect();
    let mut numbers = Vec::new();
    let mut lines = String::new();
    for row in list().iter().filter(|row| row[1] == locale) {
        let [number, _, content, key, size, offset, archive, _] = &row[..] else {
            panic!("a row has eight fields");
        };
        let place = archives.iter().position(|name| name == archive);
        lines += &match (key.as_str(), place, group) {
            ("-", ..) => format!("absent\t{number}\tencoding\t-\n"),
            (_, None, _) => format!("absent\t{number}\tindex\t-\n"),
            (_, Some(_), None) => format!(
                "found\t{number}\t{content}\t{key}\t{size}\t-\t{offset}\tarchives/{archive}.index\t-\n"
            ),
            (_, Some(place), Some(group)) => {
                format!(
                    "found\t{number}\t{content}\t{key}\t{size}\t{place}\t{offset}\t{group}\t-\n"
                )
            }
        };
        numbers.push(number.clone());
    }
    (numbers, lines)
}

#[test]
fn every_file_number_of_the_list_in_every_layout() {
    let mut entries = fs::read_dir(sample().join("group")).expect("it is a folder");
    let group = entries
        .next()
        .expect("it has an index")
        .expect("it can be read");
    let group = format!(
        "group/{}",
        group.file_name().to_str().expect("its name is text")
    );
    for root in ["root-v1", "root-short", "root-v2"] {
        for locale in ["enUS", "deDE"] {
            for (index, group) in [("archives", None), (&group[..], Some(&group[..]))] {
                let (numbers, lines) = lines(locale, group);
                let mut arguments = build(root, index);
                arguments.extend(["--locale", locale]);
                arguments.extend(numbers.iter().map(String::as_str));
                let status = i32::from(lines.contains("absent"));
                expect(&sample(), &arguments, status, &lines, "");
            }
        }
    }
}

#[test]
fn what_a_file_holds_is_what_the_answer_says() {
    let (_, lines) = lines("enUS", None);
    for line in lines.lines().filter(|line| line.starts_with("found")) {
        let fields: Vec<_> = line.split('\t').collect();
        let archive = fields[7].strip_suffix(".index").expect("it is an index");
        let archive = fs::read(sample().join(archive)).expect("the archive is there");
        let [size, offset] = [4, 6].map(|field| fields[field].parse::<usize>().expect("a number"));
        let open = dwarnizza(["blte", "open", "--key", fields[3], "-"]);
        let opened = output(open, &sample(), &archive[offset..][..size]);
        let begins = format!("File {} of the sample build, enUS.\n", fields[1]);
        assert!(opened.stdout.starts_with(begins.as_bytes()), "{line}");
    }
}

#[test]
fn a_worklist_is_answered_row_by_row() {
    let mut arguments = build("root-v2", "archives");
    arguments.extend(["--worklist", "worklist.csv", "--column-name", "file"]);
    let said = expect(
        &sample(),
        &arguments,
        2,
        "",
        "22 rows, row 1 is the header (name,file,key): 13 found, 2 absent, 0 unknown, 6 refused; \
         1 duplicate",
    );
    for words in [
        "\nabsent\t5\troot\t14\n",
        "\nrefused\t00417\t16\n",
        "\nrefused\t\t21\n",
        "worklist.csv: column file, row 16: \"00417\" is no file number: leading zero",
        "row 17: \"e6ef4743229042990c37cda050cbb585\" is no file number: \"e\" is no digit",
        "row 18: \"417.0\" is no file number: \".\" is no digit; it looks like a fraction",
        "row 19: \"4294967296\" is no file number: it is above 4294967295",
        "row 20: \"417 \" is no file number: \" \" is no digit; there are blanks around it",
        "row 21: it is empty",
    ] {
        assert!(said.contains(words), "{words}\n{said}");
    }
    assert!(
        said.contains("\t22\n"),
        "the row after the refused ones is answered: {said}"
    );
}

#[test]
fn a_column_that_mixes_keys_and_numbers_is_not_guessed() {
    let mut arguments = build("root-v1", "archives");
    arguments.extend(["--worklist=worklist.tsv", "--column-name=file or key"]);
    let words = "7 rows, row 1 is the header (name\\tfile or key): 3 found, 0 absent, 0 unknown, 3 refused; 0 duplicate";
    let said = expect(&sample(), &arguments, 2, "", words);
    assert_eq!(said.matches("is no file number").count(), 3);
}

#[test]
fn a_damaged_index_is_told_and_the_others_answer() {
    let folder = folder("resolve_damaged");
    for name in ["root-v1", "encoding"] {
        fs::copy(sample().join(name), folder.join(name)).expect("it can be copied");
    }
    fs::create_dir(folder.join("archives")).expect("a folder can be made");
    for entry in fs::read_dir(sample().join("archives")).expect("it is a folder") {
        let path = entry.expect("it can be read").path();
        let name = path.file_name().expect("it has a name");
        fs::copy(&path, folder.join("archives").join(name)).expect("it can be copied");
    }
    let name = "archives/066a04990bc3bbc7c21bab87f0144807.index";
    let mut bytes = fs::read(folder.join(name)).expect("it is there");
    bytes[0] ^= 1;
    fs::write(folder.join(name), bytes).expect("a file can be written");
    let mut arguments = build("root-v1", "archives");
    arguments.extend(["417", "418"]);
    let said = expect(&folder, &arguments, 2, "", "refused 6 at 0");
    let first = format!("refused\t{name}\t6\t0\nfound\t417\t");
    assert!(said.starts_with(&first), "{said}");
    assert!(said.contains("\nunknown\t418\tindex\t-\n"), "{said}");
}

#[test]
fn other_files_are_refused_with_their_kind() {
    let arguments = [
        "resolve",
        "--root",
        "root-v1.blte",
        "--encoding",
        "encoding",
        "--index",
        "archives",
        "5",
    ];
    let refused = "refused\troot-v1.blte\t40\t0\n";
    expect(&sample(), &arguments, 2, refused, "BLTE envelope");
    let arguments = [
        "resolve",
        "--root",
        "root-v1",
        "--encoding",
        "root-v2",
        "--index",
        "archives",
        "5",
    ];
    expect(
        &sample(),
        &arguments,
        2,
        "refused\troot-v2\t30\t0\n",
        "it is a root file and not an encoding file",
    );
}

/// Where no index can be searched, nothing is said to be absent.
#[test]
fn without_a_good_index_nothing_is_absent() {
    let mut arguments = build("root-v1", "root-v2");
    arguments.push("417");
    let unknown = "refused\troot-v2\t102\t8\nunknown\t417\tindex\t-\n";
    expect(&sample(), &arguments, 2, unknown, "it is a root file");
    let mut arguments = build("root-v1", "loose");
    arguments.push("417");
    let said = expect(&sample(), &arguments, 1, "", "ends in .index");
    assert!(!said.contains("absent"), "{said}");
}

/// Keys are not cut: an index whose keys have another length cannot say that a file is absent.
#[test]
fn an_index_of_other_keys() {
    let folder = folder("resolve_other_keys");
    for name in ["root-v1", "encoding"] {
        fs::copy(sample().join(name), folder.join(name)).expect("it can be copied");
    }
    let nine = second::index::Settings {
        version: 1,
        offset_width: 4,
        key_length: 9,
    };
    fs::write(folder.join("nine.index"), counted::of_list(nine, &[])).expect("it can be written");
    let mut arguments = build("root-v1", "nine.index");
    arguments.extend(["417", "9001"]);
    let lines = "refused\t417\t-\t10\t0\nabsent\t9001\tencoding\t-\n";
    let words = "nine.index: refused 10: key not of the index's key length";
    expect(&folder, &arguments, 2, lines, words);
}

#[test]
fn wrong_usage() {
    let mut without_numbers = build("root-v1", "archives");
    expect(
        &sample(),
        &without_numbers,
        64,
        "",
        "a file number is missing",
    );
    without_numbers.push("--column=1");
    expect(
        &sample(),
        &without_numbers,
        64,
        "",
        "--column wants --worklist",
    );
    expect(&sample(), &["resolve", "417"], 64, "", "--root is missing");
    let arguments = [
        "resolve",
        "--root",
        "root-v1",
        "--encoding",
        "encoding",
        "417",
    ];
    expect(&sample(), &arguments, 64, "", "--index PATH");
}

#[test]
fn help() {
    for option in ["--help", "-h"] {
        let said = expect(&sample(), &["resolve", option], 0, "", "");
        assert!(
            said.starts_with("usage: dwarnizza resolve --root FILE"),
            "{said}"
        );
        for word in [
            "--encoding FILE",
            "--locale",
            "--worklist",
            "found NUMBER",
            "absent NUMBER",
        ] {
            assert!(said.contains(word), "{word}\n{said}");
        }
    }
}
