//! Worklists of numbers and keys, with the mistakes that spreadsheets make, and one of paths.

use crate::content::{BLOOD, Content, LOOSE};
use crate::hex;

/// The name of a row, its file number and its encoding key.
type Row = [String; 3];

/// The rows under the header. Row 1 is the header; rows 2 to 12 are right but for a name with a
/// comma and one with a line's end, row 13 is row 2 again, row 14 and 15 are in no file, and the
/// rest are mistakes, of which row 17 has a key that became a number.
fn rows(contents: &[Content]) -> Vec<Row> {
    let row = |name: &str, number: &str, key: &str| [name, number, key].map(str::to_string);
    let right = |name: &str, content: &Content| {
        let number = content.number.to_string();
        row(name, &number, &hex(&content.encoding_key()))
    };
    let mut rows: Vec<Row> = (0..11)
        .map(|i| right(&format!("Item {i}"), &contents[i]))
        .collect();
    rows[3][0] = "Torch, small".to_string();
    rows[4][0] = "Banner \"of\nthe\" north".to_string();
    rows.push(right("Item 0 again", &contents[0]));
    rows.push(row("Unused", "5", "00000000000000000000000000000005"));
    rows.push(row(
        "Unused too",
        "4294967294",
        "ffffffffffffffffffffffffffffffff",
    ));
    let key = hex(&contents[11].encoding_key());
    rows.push(row("Zeros before it", "00417", &key[..31]));
    rows.push(row("A number for a key", &key, "00417"));
    rows.push(row("Fraction", "417.0", "4.17E+20"));
    rows.push(row("Too large", "4294967296", &format!("{}0", &key)));
    rows.push(row("Space after it", "417 ", &format!("{key} ")));
    rows.push(row("Nothing", "", ""));
    rows.push(right("The last", &contents[12]));
    rows
}

/// With commas, quoted fields where they are wanted, and CRLF.
pub fn csv(contents: &[Content]) -> String {
    let rows = rows(contents).into_iter().map(csv_row);
    "name,file,key\r\n".to_string() + &rows.collect::<String>()
}

/// Names and paths, with either slash and in either case. The same file stands in rows 2 and 3, and
/// no file has the last path.
pub fn paths(contents: &[Content]) -> String {
    let path = |number: u32| {
        let mut contents = contents.iter();
        let content = contents.find(|content| content.number == number);
        content.expect("the build has it").path()
    };
    let rows = [
        ("An icon", path(417)),
        ("The same icon", path(417).to_lowercase().replace('\\', "/")),
        ("Music", path(53_189).replace('\\', "/")),
        ("A map", path(1_349_486).to_uppercase()),
        ("In no archive", path(LOOSE)),
        ("Blood, low violence", path(BLOOD)),
        (
            "Of another build",
            r"Interface\Icons\INV_Misc_QuestionMark.blp".to_string(),
        ),
    ];
    let rows = rows.map(|(name, path)| csv_row([name.to_string(), path]));
    "name,path\r\n".to_string() + &rows.concat()
}

fn csv_row<const N: usize>(row: [String; N]) -> String {
    row.map(|field| quoted(&field)).join(",") + "\r\n"
}

/// File numbers and keys mixed in one column, with tabs and no name that wants quotes.
pub fn tsv(contents: &[Content]) -> String {
    let mut text = "name\tfile or key\n".to_string();
    for (i, content) in contents.iter().take(6).enumerate() {
        let number = content.number.to_string();
        let key = hex(&content.encoding_key());
        let either = if i % 2 == 0 { number } else { key };
        text += &format!("Item {i}\t{either}\n");
    }
    text
}

/// A field as it stands in a CSV file.
fn quoted(field: &str) -> String {
    if field.contains([',', '"', '\n']) {
        format!("\"{}\"", field.replace('"', "\"\""))
    } else {
        field.to_string()
    }
}
