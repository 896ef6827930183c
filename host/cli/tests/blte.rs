//! `dwarnizza blte`, on the sample build.

mod run;

use std::fs;

use run::{dwarnizza, expect, folder, output, sample};

const KEY: &str = "8cffb15a2230cd81b72b154219da4480";

#[test]
fn key() {
    let answer = format!("ok\tencoding.blte\t{KEY}\nrefused\tencoding\t20\t0\n");
    let words = "it is an encoding file and not an envelope";
    let arguments = ["blte", "key", "encoding.blte", "encoding"];
    expect(&sample(), &arguments, 2, &answer, words);
}

#[test]
fn open_to_standard_output() {
    for name in ["encoding", "root-v1", "root-short", "root-v2"] {
        let envelope = format!("{name}.blte");
        let opened = output(dwarnizza(["blte", "open", &envelope]), &sample(), b"");
        assert!(opened.status.success() && opened.stderr.is_empty());
        assert!(opened.stdout == fs::read(sample().join(name)).expect("it is there"));
    }
}

#[test]
fn open_into_a_file_that_stays_unless_forced() {
    let folder = folder("blte_open");
    let envelope = sample().join("encoding.blte");
    let envelope = envelope.to_str().expect("its name is text");
    let key = format!("--key={KEY}");
    let open = ["blte", "open", &key, envelope, "-o", "out"];
    let said = expect(&folder, &open, 0, "", "");
    assert_eq!(said, format!("ok\t{envelope}\t{KEY}\tout\t5319\n"));
    let content = fs::read(sample().join("encoding")).expect("it is there");
    assert!(fs::read(folder.join("out")).expect("it was written") == content);

    fs::write(folder.join("out"), "mine").expect("a file can be written");
    expect(&folder, &open, 3, "", "--force");
    assert_eq!(fs::read(folder.join("out")).expect("it stays"), b"mine");
    expect(&folder, &[&open[..], &["--force"]].concat(), 0, "", "");
    assert!(fs::read(folder.join("out")).expect("it was replaced") == content);
    assert_eq!(fs::read_dir(&folder).expect("it is a folder").count(), 1);
}

#[test]
fn nothing_is_written_of_what_is_refused() {
    let folder = folder("blte_refused");
    let mut bytes = fs::read(sample().join("encoding.blte")).expect("it is there");
    *bytes.last_mut().expect("it has bytes") ^= 1;
    fs::write(folder.join("damaged"), bytes).expect("a file can be written");
    let other = "--key=787f035563c5f6f125620f6c1b3c9565";
    for (arguments, number, words) in [
        (
            &["blte", "open", "damaged", "-o", "out"][..],
            "23\t1",
            "refused 23 at 1",
        ),
        (
            &["blte", "open", other, "damaged", "-o", "out"],
            "27\t0",
            "refused 27",
        ),
        (
            &["blte", "open", "--key=00417", "damaged", "-o", "out"],
            "-\t-",
            "has 5 characters, a key has 32",
        ),
    ] {
        let refused = format!("refused\tdamaged\t{number}\n");
        expect(&folder, arguments, 2, &refused, words);
        assert_eq!(fs::read_dir(&folder).expect("it is a folder").count(), 1);
    }
    // Standard output is for the content, and has no line.
    let refused = output(dwarnizza(["blte", "open", "damaged"]), &folder, b"");
    assert!(refused.stdout.is_empty() && refused.status.code() == Some(2));
}
