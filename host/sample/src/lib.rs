//! The sample build: a small game build whose every byte goes by this program alone, to try the
//! tool on. The formats are written by the second program.

#![forbid(unsafe_code)]

mod archive;
mod content;
mod damaged;
mod manifest;
mod worklist;

use std::fmt::Write;

use archive::{Archives, Place};
use content::Content;
use second::md5;

/// A file of the sample build: its name, relative to the folder, and its bytes.
type File = (String, Vec<u8>);

/// All files of the sample build.
pub fn files() -> Vec<File> {
    let contents = content::contents();
    let archives = Archives::of(&contents);
    let mut files = archives.files();
    for (name, text) in [
        ("cdn-config", archives.config()),
        ("files.tsv", list(&contents, &archives)),
        ("worklist.csv", worklist::csv(&contents)),
        ("worklist.tsv", worklist::tsv(&contents)),
        ("paths.csv", worklist::paths(&contents)),
    ] {
        files.push((name.to_string(), text.into_bytes()));
    }
    files.extend(damaged_indexes(&archives));
    files.extend(loose(&contents));
    files.extend(manifests(&contents));
    files
}

/// The index of the first archive with each damage.
fn damaged_indexes(archives: &Archives) -> impl Iterator<Item = File> {
    let damaged = damaged::damaged(archives.index(0)).into_iter();
    damaged.map(|(damage, bytes)| (format!("damaged/{damage}.index"), bytes))
}

/// The envelopes of files that are in no archive.
fn loose(contents: &[Content]) -> impl Iterator<Item = File> {
    let loose = contents.iter().filter(|content| content.is_loose());
    loose.map(|content| {
        let name = hex(&content.encoding_key());
        (format!("loose/{name}"), content.envelope.clone())
    })
}

/// Root files and encoding file, each also in its envelope.
fn manifests(contents: &[Content]) -> [File; 8] {
    let v1 = manifest::root_v1(contents);
    let short = manifest::root_short(contents);
    let v2 = manifest::root_v2(contents);
    let v1_envelope = content::single(&v1);
    let short_envelope = content::single(&short);
    let v2_envelope = content::chunked(&v2, 1024);
    let encoding = manifest::encoding(
        contents,
        &[
            (&v1, &v1_envelope),
            (&short, &short_envelope),
            (&v2, &v2_envelope),
        ],
    );
    let encoding_envelope = content::chunked(&encoding, 4096);
    [
        ("root-v1", v1),
        ("root-v1.blte", v1_envelope),
        ("root-short", short),
        ("root-short.blte", short_envelope),
        ("root-v2", v2),
        ("root-v2.blte", v2_envelope),
        ("encoding", encoding),
        ("encoding.blte", encoding_envelope),
    ]
    .map(|(name, bytes)| (name.to_string(), bytes))
}

/// The file numbers: a line of tab-separated fields for each, after a line that names the fields.
/// A dash stands for what the build has not.
fn list(contents: &[Content], archives: &Archives) -> String {
    let mut list =
        "number\tlocale\tcontent key\tencoding key\tsize\toffset\tarchive\tpath\n".to_string();
    for content in contents {
        let Content { number, locale, .. } = content;
        let key = hex(&content.key());
        write!(list, "{number}\t{}\t{key}\t", locale.name()).expect("a string takes it");
        let line = match archives.place(content) {
            _ if !content.is_known() => "-\t-\t-\t-".to_string(),
            None => format!(
                "{}\t{}\t-\t-",
                hex(&content.encoding_key()),
                content.envelope.len()
            ),
            Some(Place { archive, offset }) => {
                let key = hex(&content.encoding_key());
                let name = archives.name(archive);
                format!("{key}\t{}\t{offset}\t{name}", content.envelope.len())
            }
        };
        list += &format!("{line}\t{}\n", content.path());
    }
    list
}

/// The MD5 of parts of the sample build.
fn digest(bytes: &[u8]) -> [u8; 16] {
    md5::digest(bytes).expect("the sample build is below the limit")
}

fn hex(bytes: &[u8]) -> String {
    bytes.iter().map(|byte| format!("{byte:02x}")).collect()
}
