//! `dwarnizza index` check, info and diff.

mod run;

use forge::counted::{self, W4, W6, index, key, list};
use run::{folder, held, put, run};
use second::index::Settings;

#[test]
fn check_in_words_and_json() {
    let folder = folder("index_check");
    put(&folder, "good", index(W4, 171, 0));
    let mut bad = index(W4, 171, 0);
    bad[4096 + 5] ^= 1;
    put(&folder, "bad", &bad);
    let lines = "ok\tgood\t1\t4\t16\t171\t2\nrefused\tbad\t6\t1\n";
    let words = "dwarnizza: bad: refused 6 at 1: page hash wrong (page 1); that page stands at bytes 4096 to 8191, its hash at bytes 8232 to 8239: fetch";
    run(&folder, ["index", "check", "good", "bad"]).expect(
        2,
        lines,
        &[words, "2 indexes: 1 ok, 1 refused"],
    );
    let json = run(&folder, ["index", "check", "--json", "good", "bad"]);
    let objects: Vec<_> = json.lines.lines().collect();
    assert_eq!(
        objects[0],
        r#"{"answer":"ok","file":"good","version":1,"W":4,"K":16,"entries":171,"pages":2}"#
    );
    assert!(objects[1].starts_with(
        r#"{"answer":"refused","file":"bad","number":6,"place":1,"words":"bad: refused 6"#
    ));
    assert_eq!(
        objects[2],
        r#"{"answer":"summary","files":2,"ok":1,"refused":1,"failed":0,"misnamed":0,"outside":0}"#
    );
    assert_eq!(json.status, 2);
}

/// A refusal has its line and its object; bytes on standard output have neither among them.
#[test]
fn a_refused_index_is_answered() {
    let folder = folder("index_refused");
    put(&folder, "good", index(W4, 2, 9));
    put(&folder, "short", "short");
    let words = ["dwarnizza: short: refused 1: index under 28 bytes; it has 5 bytes"];
    for arguments in [
        &["index", "list", "short"][..],
        &["index", "list", "short", "-o", "out"],
        &["index", "list", "short", "--raw", "-o", "out"],
        &["index", "diff", "good", "short"],
        &["index", "diff", "short", "good"],
        &["index", "info", "short"],
    ] {
        run(&folder, arguments).expect(2, "refused\tshort\t1\t0\n", &words);
    }
    run(&folder, ["index", "list", "short", "--raw"]).expect(2, "", &words);
    let json = run(&folder, ["index", "list", "short", "--json"]);
    let object = r#"{"answer":"refused","file":"short","number":1,"place":0,"words":"short: "#;
    assert!(json.lines.starts_with(object), "{}", json.lines);
    let missing = run(&folder, ["index", "diff", "good", "missing"]);
    missing.expect(3, "failed\tmissing\n", &["cannot read missing"]);
    assert_eq!(held(&folder), ["good", "short"]);
}

#[test]
fn info() {
    let folder = folder("index_info");
    put(&folder, "index", index(W6, 158, 0));
    put(&folder, "none", index(W4, 0, 0));
    let [name, none] = [index(W6, 158, 0), index(W4, 0, 0)].map(|index| counted::name(&index));
    let lines = format!(
        "info\tindex\t1\t6\t16\t158\t2\t8268\t{name}\t{}\t{}\t11\ninfo\tnone\t1\t4\t16\t0\t0\t28\t{none}\t-\t-\t9\n",
        key(0),
        key(157)
    );
    run(&folder, ["index", "info", "index", "none"]).expect(0, &lines, &[]);
}

#[test]
fn diff() {
    let folder = folder("index_diff");
    let entries = list(W4, 6, 0);
    let mut changed = entries.clone();
    changed[4 * 24 + 19] ^= 1;
    changed.drain(24..48);
    put(&folder, "old", counted::of_list(W4, &entries[..5 * 24]));
    put(&folder, "new", counted::of_list(W4, &changed));
    let lines = format!(
        "removed\t{}\t10\t-\t5\nchanged\t{}\t19\t-\t20\t18\t-\t20\nadded\t{}\t22\t-\t25\n",
        key(1),
        key(4),
        key(5)
    );
    run(&folder, ["index", "diff", "old", "new"]).expect(
        1,
        &lines,
        &["1 removed, 1 added, 1 changed"],
    );
    run(&folder, ["index", "diff", "old", "old"]).expect(0, "", &["0 removed, 0 added, 0 changed"]);
    let json = run(&folder, ["index", "diff", "old", "old", "--json"]);
    let summary = "{\"answer\":\"summary\",\"removed\":0,\"added\":0,\"changed\":0}\n";
    json.expect(0, summary, &[]);
    let short = Settings {
        key_length: 1,
        ..W4
    };
    put(
        &folder,
        "short",
        counted::of_list(short, &[5, 0, 0, 0, 7, 0, 0, 0, 9]),
    );
    run(&folder, ["index", "diff", "old", "short"]).expect(
        2,
        "refused\tshort\t-\t-\n",
        &["their entries cannot be compared"],
    );
}
