//! `dwarnizza md5` beside md5sum.

mod run;

use std::fs;
use std::process::Command;

use run::{dwarnizza, folder, output};

fn md5sum(arguments: &[&str]) -> Command {
    let mut command = Command::new("md5sum");
    command.args(arguments);
    command
}

#[test]
fn lines_as_md5sum_has_them() {
    let folder = folder("lines");
    let names = [
        "empty",
        "two words",
        r"back\slash",
        "line\nfeed",
        "return\r",
    ];
    for (name, length) in names.into_iter().zip([0, 1, 63, 64, 200_000]) {
        fs::write(folder.join(name), vec![b'x'; length]).expect("the file can be written");
    }
    let ours = output(dwarnizza(["md5"].iter().chain(&names)), &folder, b"");
    let theirs = output(md5sum(&names), &folder, b"");
    assert_eq!(
        String::from_utf8_lossy(&ours.stdout),
        String::from_utf8_lossy(&theirs.stdout)
    );
    assert!(ours.status.success());
    assert!(ours.stderr.is_empty());
}

#[test]
fn standard_input() {
    let folder = folder("standard_input");
    let input = vec![7; 300_000];
    let theirs = output(md5sum(&[]), &folder, &input);
    for arguments in [
        &["md5"][..],
        &["md5", "-"],
        &["md5", "--"],
        &["md5", "--", "-"],
    ] {
        let ours = output(dwarnizza(arguments), &folder, &input);
        assert_eq!(ours.stdout, theirs.stdout, "{arguments:?}");
        assert!(ours.status.success());
    }
}

#[test]
fn a_name_that_begins_with_a_dash() {
    let folder = folder("dash");
    fs::write(folder.join("-x"), "abc").expect("the file can be written");
    let ours = output(dwarnizza(["md5", "--", "-x"]), &folder, b"");
    assert_eq!(ours.stdout, b"900150983cd24fb0d6963f7d28e17f72  -x\n");
}

#[test]
fn a_file_that_cannot_be_read_is_named_and_the_others_go_on() {
    let folder = folder("unreadable");
    fs::write(folder.join("there"), "abc").expect("the file can be written");
    let ours = output(dwarnizza(["md5", "missing", ".", "there"]), &folder, b"");
    assert_eq!(ours.stdout, b"900150983cd24fb0d6963f7d28e17f72  there\n");
    assert_eq!(ours.status.code(), Some(3));
    let errors = String::from_utf8(ours.stderr).expect("errors are text");
    let errors: Vec<_> = errors.lines().collect();
    assert_eq!(errors.len(), 2, "{errors:?}");
    assert!(errors[0].starts_with("dwarnizza: cannot read missing: "));
    assert!(errors[1].starts_with("dwarnizza: cannot read .: "));
}

#[test]
fn lists_are_checked() {
    let folder = folder("md5_lists");
    let names = ["plain", "back\\slash", "line\nfeed", "tab\there"];
    for name in names {
        fs::write(folder.join(name), name).expect("the file can be written");
    }
    let list = output(dwarnizza(["md5"].iter().chain(&names)), &folder, b"").stdout;
    let ours = output(dwarnizza(["md5", "-c"]), &folder, &list);
    let ok = "ok\tplain\nok\tback\\\\slash\nok\tline\\nfeed\nok\ttab\\there\n";
    assert_eq!(String::from_utf8_lossy(&ours.stdout), ok);
    assert!(ours.status.success() && ours.stderr.is_empty());

    let theirs = output(md5sum(&names[..3]), &folder, b"").stdout;
    let ours = output(dwarnizza(["md5", "-c", "-"]), &folder, &theirs);
    assert!(ours.status.success());
}

#[test]
fn a_list_tells_what_differs_what_is_missing_and_what_is_no_line() {
    let folder = folder("md5_differs");
    fs::write(folder.join("there"), "abc").expect("the file can be written");
    let digest = "900150983cd24fb0d6963f7d28e17f72";
    let other = "00000000000000000000000000000000";
    let list = format!(
        "{digest}  there\n{other} *there\nno line\n{}  there\n",
        &digest[1..]
    );
    let ours = output(dwarnizza(["md5", "-c"]), &folder, list.as_bytes());
    let refused = "refused\t-\t-\t-\n".repeat(2);
    let answers = format!("ok\tthere\ndiffers\tthere\t{digest}\t{other}\n{refused}");
    assert_eq!(String::from_utf8_lossy(&ours.stdout), answers);
    let errors = String::from_utf8(ours.stderr).expect("errors are text");
    assert!(
        errors.contains("-: line 3 is not a digest of 32 hex digits"),
        "{errors}"
    );
    assert!(errors.contains("-: line 4 is not"), "{errors}");
    assert_eq!(ours.status.code(), Some(2));

    let list = format!("{digest}  missing\n");
    let ours = output(dwarnizza(["md5", "-c"]), &folder, list.as_bytes());
    assert_eq!(ours.stdout, b"failed\tmissing\n");
    assert_eq!(ours.status.code(), Some(3));
}

#[test]
fn json() {
    let folder = folder("md5_json");
    fs::write(folder.join("a\"b"), "abc").expect("the file can be written");
    let ours = output(dwarnizza(["md5", "--json", "a\"b"]), &folder, b"");
    let line =
        "{\"answer\":\"ok\",\"file\":\"a\\\"b\",\"digest\":\"900150983cd24fb0d6963f7d28e17f72\"}\n";
    assert_eq!(String::from_utf8_lossy(&ours.stdout), line);
    let ours = output(dwarnizza(["md5", "--json", "missing"]), &folder, b"");
    let line = "{\"answer\":\"failed\",\"file\":\"missing\",\"words\":\"cannot read missing: ";
    assert!(ours.stdout.starts_with(line.as_bytes()));
    assert_eq!(ours.status.code(), Some(3));
}
