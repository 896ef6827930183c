//! Mirrors: folders, lists of files, names and archives.

mod run;

use std::fs;
use std::path::Path;

use forge::counted::{self, W4, W6, index, key};
use run::{Run, copy_tree, folder, put, run, run_with, sample};

/// Some indexes in folders, beside files that are none.
fn mirror(folder: &Path) {
    put(folder, "data/aa/one.index", index(W4, 3, 0));
    put(folder, "data/bb/two.index", index(W4, 200, 0));
    put(folder, "data/bb/two", "an archive");
    put(folder, "data/three.index", "cut");
}

#[test]
fn folders_in_order() {
    let folder = folder("mirror_folders");
    mirror(&folder);
    let lines = "ok\tdata/aa/one.index\t1\t4\t16\t3\t1\n\
                 ok\tdata/bb/two.index\t1\t4\t16\t200\t2\n\
                 refused\tdata/three.index\t1\t0\n";
    let words = ["3 indexes: 2 ok, 1 refused, 0 not read"];
    run(&folder, ["index", "check", "-r", "data"]).expect(2, lines, &words);
    put(&folder, "lines", "data/aa/one.index\ndata/bb/two.index\n");
    let two: String = lines.split_inclusive('\n').take(2).collect();
    run(&folder, ["index", "check", "--files-from", "lines"]).expect(0, &two, &["2 indexes: 2 ok"]);
    let zeros = b"data/aa/one.index\0data/bb/two.index\0";
    run_with(&folder, ["index", "check", "--files-from=-"], zeros).expect(
        0,
        &two,
        &["2 indexes: 2 ok"],
    );
    run(&folder, ["index", "check", "-r", "data/aa", "missing"]).expect(
        3,
        "ok\tdata/aa/one.index\t1\t4\t16\t3\t1\nfailed\tmissing\n",
        &["cannot read missing", "1 not read"],
    );
}

/// Many files on all cores: the lines are in the order of the files.
#[test]
fn many_files() {
    let folder = folder("mirror_many");
    let mut lines = String::new();
    for number in 0..300 {
        put(
            &folder,
            format!("{number:03}.index"),
            index(W4, number * 7 % 400, 0),
        );
        let (entries, pages) = (number * 7 % 400, (number * 7 % 400).div_ceil(170));
        lines += &format!("ok\t./{number:03}.index\t1\t4\t16\t{entries}\t{pages}\n");
    }
    run(&folder, ["index", "check", "-r", "."]).expect(0, &lines, &["300 indexes: 300 ok"]);
}

/// Right names on wrong files are told, and where they stand.
#[test]
fn names() {
    let folder = folder("mirror_names");
    let indexes = [2, 3, 4, 5].map(|entries| index(W4, entries, 0));
    let names = indexes.each_ref().map(|index| counted::name(index));
    put(&folder, format!("{}.index", names[0]), &indexes[0]);
    // The next two have each other's name; the last has a name of no file.
    put(&folder, format!("{}.index", names[1]), &indexes[2]);
    put(&folder, format!("{}.index", names[2]), &indexes[1]);
    put(&folder, "zzz.index", &indexes[3]);
    let checked = run(&folder, ["index", "check", "-r", ".", "--names"]);
    assert_eq!(checked.status, 2);
    let misnamed: Vec<_> = checked
        .lines
        .lines()
        .filter(|line| line.starts_with("misnamed"))
        .collect();
    let [_, a, b, last] = &names;
    for line in [
        format!("misnamed\t./{a}.index\t{b}\t./{b}.index"),
        format!("misnamed\t./{b}.index\t{a}\t./{a}.index"),
        format!("misnamed\t./zzz.index\t{last}\t-"),
    ] {
        assert!(misnamed.contains(&line.as_str()), "{misnamed:?}");
    }
    assert_eq!(misnamed.len(), 3);
    let words = format!(
        "./{a}.index: by its footer its name is {b}.index; that name stands on ./{b}.index"
    );
    assert!(checked.errors.contains(&words), "{}", checked.errors);
    assert!(
        checked
            .errors
            .contains("4 indexes: 4 ok, 0 refused, 0 not read; 3 misnamed")
    );
    run(
        &folder,
        ["index", "check", "--names", &format!("{}.index", names[0])],
    )
    .expect(0, &format!("ok\t{}.index\t1\t4\t16\t2\t1\n", names[0]), &[]);
}

#[test]
fn archives() {
    let folder = folder("mirror_archives");
    put(&folder, "abcd.index", index(W4, 3, 0));
    let ok = "ok\tabcd.index\t1\t4\t16\t3\t1\n";
    let check = ["index", "check", "abcd.index", "--archives", "data"];
    run(&folder, check).expect(
        3,
        &format!("{ok}unjudged\tabcd.index\tabcd\n"),
        &["cannot read data/abcd"],
    );
    // The last entry is 13 bytes from byte 10.
    put(&folder, "data/abcd", [0; 23]);
    run(&folder, check).expect(0, &format!("{ok}inside\tabcd.index\t3\n"), &[]);
    put(&folder, "data/abcd", [0; 22]);
    let outside = format!("{ok}outside\tabcd.index\t{}\t13\t10\t22\tabcd\n", key(2));
    let words = ["1 of 3 entries lie outside their archive"];
    run(&folder, check).expect(2, &outside, &words);
    fs::remove_file(folder.join("data/abcd")).expect("it goes");
    put(&folder, "data/ab/cd/abcd", [0; 23]);
    run(&folder, check).expect(0, &format!("{ok}inside\tabcd.index\t3\n"), &[]);
}

/// A footer that is damaged gives no name; one that is good gives it, whatever the pages hold.
#[test]
fn names_of_refused_indexes() {
    let folder = folder("mirror_refused_names");
    let good = index(W4, 3, 0);
    let mut footer = good.clone();
    *footer.last_mut().expect("it has bytes") ^= 1;
    let mut page = good.clone();
    page[4000] = 1;
    put(&folder, "footer.index", footer);
    put(&folder, "page.index", page);
    let lines = format!(
        "refused\tfooter.index\t3\t0\nrefused\tpage.index\t6\t0\nmisnamed\tpage.index\t{}\t-\n",
        counted::name(&good)
    );
    let check = ["index", "check", "--names", "footer.index", "page.index"];
    run(&folder, check).expect(2, &lines, &["0 ok, 2 refused, 0 not read; 1 misnamed"]);
}

/// The index of several archives in the sample build, and its check by them.
const GROUP: &str = "group/8055d3f0c6896ec8ef135a1791fcec0a.index";
const CHECK_GROUP: [&str; 5] = ["index", "check", GROUP, "--archives", "archives"];

/// The line of that index.
fn group_is_ok() -> String {
    format!("ok\t{GROUP}\t1\t6\t16\t63\t1\n")
}

/// The same check with the CDN config.
fn check_by_config(folder: &Path) -> Run {
    let config = ["--cdn-config", "cdn-config"];
    run(folder, CHECK_GROUP.iter().chain(&config))
}

#[test]
fn several_archives() {
    let ok = group_is_ok();
    let inside = format!("{ok}inside\t{GROUP}\t63\n");
    check_by_config(&sample()).expect(0, &inside, &[]);
    let unjudged = format!("{ok}unjudged\t{GROUP}\t-\n");
    let words = ["several archives; --cdn-config FILE tells their names"];
    run(&sample(), CHECK_GROUP).expect(2, &unjudged, &words);
}

/// One of several archives is cut, then missing, then not named.
#[test]
fn one_of_several_archives() {
    let folder = folder("mirror_several");
    copy_tree(&sample(), &folder);
    let config = fs::read_to_string(folder.join("cdn-config")).expect("it is there");
    let line = config.lines().next().expect("it has a line");
    let names: Vec<&str> = line.split(' ').skip(2).collect();
    let [first, second, third] = names[..] else {
        panic!("it names three archives");
    };
    let archive = folder.join("archives").join(third);
    let mut bytes = fs::read(&archive).expect("it is there");
    bytes.pop();
    fs::write(&archive, &bytes).expect("it can be written");
    let cut = check_by_config(&folder);
    let outside = cut.lines.strip_prefix(&group_is_ok());
    let outside = outside.expect("its own line comes first");
    let end = format!("\t{}\t{third}\n", bytes.len());
    assert!(outside.starts_with("outside\t") && outside.ends_with(&end));
    assert_eq!((cut.status, outside.lines().count()), (2, 1));
    assert!(cut.errors.contains("1 of 63 entries"), "{}", cut.errors);

    fs::remove_file(&archive).expect("it goes");
    let unjudged = format!("{}unjudged\t{GROUP}\t{third}\n", group_is_ok());
    let words = format!("cannot read archives/{third}: No such file");
    check_by_config(&folder).expect(3, &unjudged, &[&words]);

    put(
        &folder,
        "cdn-config",
        format!("# CDN\narchives = {first} {second}\n"),
    );
    let unjudged = format!("{}unjudged\t{GROUP}\t2\n", group_is_ok());
    let words = ["entries in archive 2, and cdn-config names 2 archives, from 0"];
    check_by_config(&folder).expect(2, &unjudged, &words);
}

/// A file that is no CDN config judges nothing.
#[test]
fn other_cdn_configs() {
    let folder = folder("mirror_config");
    put(&folder, "six.index", index(W6, 3, 0));
    let check = [
        "index",
        "check",
        "six.index",
        "--archives",
        ".",
        "--cdn-config",
        "config",
    ];
    for (config, words) in [
        (
            &b"builds = 00\n"[..],
            "config: it has no line `archives = NAME...`",
        ),
        (
            b"archives = 00417\n",
            "config: archives: \"00417\" has 5 characters, a key has 32",
        ),
        (b"archives = \xff\n", "config: it is no text"),
    ] {
        put(&folder, "config", config);
        run(&folder, check).expect(2, "refused\tconfig\t-\t-\n", &[words]);
    }
    let check = ["index", "check", "six.index", "--cdn-config", "config"];
    run(&folder, check).expect(64, "", &["--cdn-config wants --archives beside it"]);
}

/// The index that answered is named; one that is refused hides no other.
#[test]
fn find_in_many() {
    let folder = folder("mirror_find");
    mirror(&folder);
    let [one, two, none] = [key(1), key(150), key(1000)];
    let lines = format!(
        "found\t{one}\t10\t-\t5\tdata/aa/one.index\t-\nfound\t{two}\t457\t-\t750\tdata/bb/two.index\t-\n\
         refused\tdata/three.index\t1\t0\nunknown\t{none}\t-\n"
    );
    let find = ["index", "find", "--index", "data", &one, &two, &none];
    run(&folder, find).expect(2, &lines, &["data/three.index: refused 1"]);
    put(&folder, "six", index(W6, 3, 0x0007_0000_0009));
    let lines = format!("found\t{one}\t10\t7\t14\tsix\t-\n");
    run(
        &folder,
        [
            "index",
            "find",
            "--index",
            "six",
            "--index",
            "data/aa",
            &one.to_uppercase(),
        ],
    )
    .expect(0, &lines, &[]);
}

/// An index that fails the full check is searched only where that is asked for.
#[test]
fn find_unchecked() {
    let folder = folder("mirror_unchecked");
    let mut bad = index(W4, 3, 0);
    bad[4000] = 1;
    put(&folder, "bad", bad);
    let key = key(1);
    let find = ["index", "find", "--index", "bad", &key];
    let unknown = format!("refused\tbad\t6\t0\nunknown\t{key}\t-\n");
    run(&folder, find).expect(2, &unknown, &["refused 6"]);
    run(&folder, find.iter().chain(&["--unchecked"])).expect(
        0,
        &format!("found\t{key}\t10\t-\t5\tbad\t-\n"),
        &[],
    );
}

/// A folder without indexes is no good mirror.
#[test]
fn an_empty_folder() {
    let folder = folder("mirror_empty");
    put(&folder, "data/file", "no index");
    let words = ["there is no file whose name ends in .index"];
    run(&folder, ["index", "check", "-r", "data"]).expect(1, "", &words);
    run(&folder, ["index", "find", "--index", "data", &key(0)]).expect(1, "", &words);
}
