//! `dwarnizza encoding`, on the sample build.

mod run;

use std::fs;

use run::{expect, folder, run_in_2_gb, sample};

const CONTENT: &str = "cb78b02b638a38bada59a1f7ff476929";
const FIRST: &str = "787f035563c5f6f125620f6c1b3c9565";
const SECOND: &str = "d437669a809f22bf154de403f584aa3f";

#[test]
fn check() {
    expect(
        &sample(),
        &["encoding", "check", "encoding"],
        0,
        "ok\tencoding\n",
        "",
    );
    expect(
        &sample(),
        &["encoding", "check", "encoding.blte", "encoding", "nothing"],
        3,
        "refused\tencoding.blte\t30\t0\nok\tencoding\nfailed\tnothing\n",
        "it is a BLTE envelope and not an encoding file itself: `dwarnizza blte open`",
    );
}

#[test]
fn a_damaged_page_is_named() {
    let folder = folder("encoding_damaged");
    let mut bytes = fs::read(sample().join("encoding")).expect("it is there");
    // The last byte of the last encoding page: what follows is the file's own spec, b:{*=n}.
    let last = bytes.len() - b"b:{*=n}".len() - 1;
    bytes[last] ^= 1;
    fs::write(folder.join("damaged"), &bytes).expect("a file can be written");
    let refused = "refused\tdamaged\t34\t1\n";
    let words =
        "refused 34 at 1: page hash wrong (page 1); the pages of each kind are counted from 0";
    expect(
        &folder,
        &["encoding", "check", "damaged"],
        2,
        refused,
        words,
    );
    expect(
        &folder,
        &["encoding", "find", "damaged", CONTENT],
        2,
        refused,
        words,
    );
    expect(
        &folder,
        &["encoding", "spec", "damaged", "0"],
        2,
        refused,
        words,
    );
    let arguments = ["encoding", "spec", "damaged", "0", "--unchecked"];
    expect(&folder, &arguments, 0, "found\t0\tn\n", "");
    let found = format!("found\t{CONTENT}\t108\t{FIRST},{SECOND}\t-\n");
    let arguments = ["encoding", "find", "--unchecked", "damaged", CONTENT];
    expect(&folder, &arguments, 0, &found, "");
}

#[test]
fn a_cut_file_is_told() {
    let folder = folder("encoding_cut");
    let bytes = fs::read(sample().join("encoding")).expect("it is there");
    fs::write(folder.join("cut"), &bytes[..3000]).expect("a file can be written");
    let words = "cut in download? Fetch it again";
    expect(
        &folder,
        &["encoding", "check", "cut"],
        2,
        "refused\tcut\t32\t0\n",
        words,
    );
}

#[test]
fn find() {
    let absent = "00000000000000000000000000000000";
    let found = format!("found\t{CONTENT}\t108\t{FIRST},{SECOND}\t-\nabsent\t{absent}\t-\n");
    expect(
        &sample(),
        &["encoding", "find", "encoding", CONTENT, absent],
        1,
        &found,
        "",
    );
    let found = format!("found\t{FIRST}\t117\t0\tn\t-\n");
    let arguments = ["encoding", "find", "--encoding-keys", "encoding", FIRST];
    expect(&sample(), &arguments, 0, &found, "");
    let json = format!(
        "{{\"answer\":\"found\",\"key\":\"{CONTENT}\",\"size\":108,\"encoding_keys\":\"{FIRST},{SECOND}\",\"row\":null}}\n"
    );
    let arguments = ["encoding", "find", "--json", "encoding", CONTENT];
    expect(&sample(), &arguments, 0, &json, "");
}

#[test]
fn a_short_key_is_refused_and_never_padded() {
    let words = "\"00417\" has 5 characters, a key has 32";
    let arguments = ["encoding", "find", "encoding", "00417"];
    expect(&sample(), &arguments, 2, "refused\t00417\t-\n", words);
    let arguments = ["encoding", "find", "encoding", "0417"];
    expect(
        &sample(),
        &arguments,
        2,
        "refused\t0417\t-\t39\t0\n",
        "32 hex digits",
    );
}

#[test]
fn spec() {
    let arguments = ["encoding", "spec", "encoding", "0", "1"];
    expect(
        &sample(),
        &arguments,
        0,
        "found\t0\tn\nfound\t1\tb:{*=n}\n",
        "",
    );
    let arguments = ["encoding", "spec", "encoding", "2", "01"];
    let refused = "refused\t2\t38\t0\nrefused\t01\n";
    expect(
        &sample(),
        &arguments,
        2,
        refused,
        "\"01\" is no spec number",
    );
}

#[test]
fn a_file_of_30_gb_is_refused_without_being_read() {
    let folder = folder("encoding_30_gb");
    let file = fs::File::create(folder.join("long")).expect("a file can be made");
    file.set_len(30_000_000_000).expect("it is sparse");
    for (command, refused) in [
        (["encoding", "check"], "refused\tlong\t30\t0\n"),
        (["blte", "key"], "refused\tlong\t20\t0\n"),
        (["root", "check"], "refused\tlong\t-\t-\n"),
    ] {
        let arguments = [&command[..], &["long"]].concat();
        run_in_2_gb(&folder, arguments).expect(2, refused, &["long: "]);
    }
    fs::remove_file(folder.join("long")).expect("it can be removed");
}

#[test]
fn wrong_usage() {
    for arguments in [
        &["encoding"][..],
        &["encoding", "check"],
        &["encoding", "find", "encoding"],
        &["encoding", "spec", "encoding"],
        &["encoding", "none"],
    ] {
        expect(&sample(), arguments, 64, "", "`dwarnizza --help`");
    }
}
