//! `dwarnizza index` list and write.

mod run;

use std::path::Path;

use forge::counted::{self, W4, W6, index, key, list};
use run::{folder, held, holds, put, run, run_with};
use second::index::Settings;

#[test]
fn list_is_text() {
    let folder = folder("index_list");
    put(&folder, "four", index(W4, 2, 9));
    let text = format!(
        "index\tversion=1\toffset=4\tkey=16\tentries=2\n{}\t7\t-\t9\n{}\t10\t-\t14\n",
        key(0),
        key(1)
    );
    run(&folder, ["index", "list", "four"]).expect(0, &text, &[]);
    run(&folder, ["index", "list", "four", "-o", "text"]).expect(0, "", &[]);
    holds(&folder, "text", text.as_bytes());
    put(&folder, "six", index(W6, 1, 0xa5a6_0000_0009));
    let text = format!(
        "index\tversion=1\toffset=6\tkey=16\tentries=1\n{}\t7\t42406\t9\n",
        key(0)
    );
    run(&folder, ["index", "list", "six"]).expect(0, &text, &[]);
    let json = run(&folder, ["index", "list", "six", "--json"]).lines;
    assert!(json.ends_with(&format!(
        "{{\"answer\":\"entry\",\"key\":\"{}\",\"size\":7,\"archive\":42406,\"offset\":9}}\n",
        key(0)
    )));
    run(&folder, ["index", "list", "--raw", "four", "-o", "raw"]).expect(0, "", &[]);
    holds(&folder, "raw", &list(W4, 2, 9));
    let refused = "refused\t-\t1\t0\n";
    run_with(&folder, ["index", "list", "-"], b"short").expect(2, refused, &["refused 1"]);
}

/// A list with these settings, whose keys rise.
fn rising_list(settings: Settings, entries: u32) -> Vec<u8> {
    let mut list = list(settings, entries, 3);
    for (number, entry) in (0_u32..).zip(list.chunks_mut(settings.entry_len())) {
        entry[..settings.key_len()].fill(0);
        entry[..4].copy_from_slice(&number.to_be_bytes());
    }
    list
}

/// What `list` says, `write` makes the same index of: every width, many key lengths, any size.
#[test]
fn list_then_write() {
    let folder = folder("lists_round");
    for (offset_width, key_length, entries) in
        [(4, 16, 0), (5, 9, 300), (6, 16, 100_000), (4, 12, 171)]
    {
        let settings = Settings {
            version: 1,
            offset_width,
            key_length,
        };
        let file = counted::of_list(settings, &rising_list(settings, entries));
        put(&folder, "index", &file);
        let line = format!("written\tagain\t{}\t{}\n", file.len(), counted::name(&file));
        run(&folder, ["index", "list", "index", "-o", "text", "--force"]).expect(0, "", &[]);
        let write = ["index", "write", "text", "-o", "again", "--force"];
        assert_eq!(run(&folder, write).lines, line);
        holds(&folder, "again", &file);

        let list = ["index", "list", "--raw", "index", "-o", "raw", "--force"];
        run(&folder, list).expect(0, "", &[]);
        let [w, k] = [
            format!("--offset={offset_width}"),
            format!("--key={key_length}"),
        ];
        let write = [
            "index",
            "write",
            "--raw",
            "raw",
            "--index-version=1",
            &w,
            &k,
        ];
        run(&folder, write.iter().chain(&["-o", "again", "--force"])).expect(0, &line, &[]);
        holds(&folder, "again", &file);
    }
}

/// The first line of a list of two entries, and lines of entries.
const FIRST: &str = "index\tversion=1\toffset=4\tkey=16\tentries=2\n";

fn line(number: u32) -> String {
    format!("{}\t7\t-\t9\n", key(number))
}

/// A list makes no file, and is refused with this number and place and with these words.
#[track_caller]
fn expect_refused(folder: &Path, list: &str, number: &str, words: &str) {
    put(folder, "list", list);
    let refused = format!("refused\tlist\t{number}\n");
    let write = ["index", "write", "list", "-o", "out"];
    run(folder, write).expect(2, &refused, &[words]);
    assert_eq!(held(folder), ["list"]);
}

#[test]
fn first_lines_that_are_refused() {
    let folder = folder("lists_first");
    let entries = line(0) + &line(1);
    for (list, number, words) in [
        (String::new(), "-\t-", "line 1: the list is empty"),
        (line(0), "-\t-", "line 1: a list begins with `index`"),
        (
            FIRST.replace("key=16", "key=16 "),
            "-\t-",
            "line 1: a list begins with",
        ),
        (
            FIRST.replace("version=1", "version=256"),
            "-\t-",
            "line 1: version=256 is no setting",
        ),
        (
            FIRST.replace("version=1", "version=2") + &entries,
            "11\t0",
            "refused 11: settings wrong; the version is 0 to 1, not 2",
        ),
        (
            FIRST.replace("offset=4", "offset=7") + &entries,
            "11\t0",
            "refused 11: settings wrong; the offset width is 4 to 6, not 7",
        ),
        (
            FIRST.replace("key=16", "key=15") + &entries,
            "-\t-",
            "has 32 characters, a key has 30",
        ),
    ] {
        expect_refused(&folder, &list, number, words);
    }
}

#[test]
fn lists_that_are_cut() {
    let folder = folder("lists_cut");
    let (one, two) = (line(0), line(1));
    for (list, words) in [
        (
            FIRST.to_string() + &one,
            "the list is cut: its first line says 2 entries, and it has 1",
        ),
        (
            FIRST.to_string() + &one + &two[..36],
            "line 3: it does not end in a line feed: the list is cut",
        ),
        (
            FIRST.to_string() + &one + &two + &two,
            "line 4: the first line says 2 entries, and here is one more",
        ),
        (
            FIRST.replace("entries=2", "entries=18446744073709551615"),
            "the list is cut: its first line says 18446744073709551615 entries, and it has 0",
        ),
    ] {
        expect_refused(&folder, &list, "-\t-", words);
    }
}

#[test]
fn entries_that_are_none() {
    let folder = folder("lists_no_entries");
    let two = line(1);
    for (second, words) in [
        (
            two.replace("\t-\t", "\t0\t"),
            "line 3: offset width 4 has - for the archive",
        ),
        (
            two.replace("\t7", "\t4294967296"),
            "line 3: 4294967296 is above any size",
        ),
        (two.replace("\t9", "\t09"), "line 3: \"09\" is no offset"),
        (
            two.replace("\t9", ""),
            "line 3: an entry is key, size, archive and offset",
        ),
        (two[1..].to_string(), "line 3: \"000000000000001"),
    ] {
        let list = FIRST.to_string() + &line(0) + &second;
        expect_refused(&folder, &list, "-\t-", words);
    }
    let six = FIRST.replace("offset=4", "offset=6") + &line(0) + &two;
    let words = "line 2: offset width 6 wants an archive number";
    expect_refused(&folder, &six, "-\t-", words);
}

/// Entries that the library refuses.
#[test]
fn entries_that_are_refused() {
    let folder = folder("lists_entries");
    let (one, two) = (line(0), line(1));
    let falling = FIRST.to_string() + &two + &one;
    let words = "refused 8 at 1: key not above the one before (entry 1); line 3 of the list";
    expect_refused(&folder, &falling, "8\t1", words);
    let far = FIRST.to_string() + &one + &two.replace("\t9", "\t4294967296");
    expect_refused(&folder, &far, "11\t0", "line 3: refused 11");
    let six = FIRST.replace("offset=4", "offset=6");
    let high = six + &one.replace("\t-\t", "\t65536\t") + &two;
    expect_refused(&folder, &high, "11\t0", "line 2: refused 11");
}

/// Bytes have no settings of their own.
#[test]
fn bytes_that_are_refused() {
    let folder = folder("lists_bytes");
    put(&folder, "raw", list(W4, 4, 0));
    let write = [
        "index",
        "write",
        "--raw",
        "raw",
        "-o",
        "out",
        "--index-version=1",
        "--offset=5",
    ];
    for (key, number, words) in [
        (
            "--key=16",
            "12\t0",
            "refused 12: list not whole entries; it has 96 bytes",
        ),
        (
            "--key=17",
            "11\t0",
            "refused 11: settings wrong; the key length is 1 to 16, not 17",
        ),
    ] {
        let refused = format!("refused\traw\t{number}\n");
        run(&folder, write.iter().chain(&[key])).expect(2, &refused, &[words]);
    }
    assert_eq!(held(&folder), ["raw"]);
}

/// A long list is judged while it is read: what is wrong at its start is told, not that it is cut.
#[test]
fn a_list_is_judged_before_its_end() {
    let folder = folder("index_long_list");
    let mut list = "index\tversion=1\toffset=4\tkey=16\tentries=100000\n".to_string();
    let keys = [0, 0].into_iter().chain(1..50_000);
    list.extend(keys.map(|number| format!("{}\t7\t-\t9\n", key(number))));
    put(&folder, "list", list);
    let words = ["refused 8 at 1: key not above the one before (entry 1); line 3 of the list"];
    let write = ["index", "write", "list", "-o", "out"];
    run(&folder, write).expect(2, "refused\tlist\t8\t1\n", &words);
    assert_eq!(held(&folder), ["list"]);
}

/// A rewritten index says when its name has changed.
#[test]
fn a_changed_name_is_said() {
    let folder = folder("index_renamed");
    let old = index(W4, 2, 0);
    let file = format!("{}.index", counted::name(&old));
    put(&folder, &file, &old);
    put(&folder, "new", index(W4, 3, 0));
    run(&folder, ["index", "list", "new", "-o", "list"]).expect(0, "", &[]);
    let name = counted::name(&index(W4, 3, 0));
    let written = run(&folder, ["index", "write", "list", "-o", &file, "--force"]);
    let changed = format!(
        "the MD5 of its footer was {} and is {name}",
        counted::name(&old)
    );
    let by_footer = format!("by its footer its name is {name}.index, and not {file}");
    written.expect(
        0,
        &format!("written\t{file}\t4148\t{name}\n"),
        &[&changed, &by_footer],
    );
    run(
        &folder,
        ["index", "write", "list", "-o", &format!("{name}.index")],
    )
    .expect(0, &format!("written\t{name}.index\t4148\t{name}\n"), &[]);
}
