//! The chain: the library against the second program, over whole builds.

mod compare;

use compare::{in_library_entry, in_library_terms, refusal_at};
use dwarnizza::chain::Resolved;
use dwarnizza::index::{Entry, Page, Slot};
use dwarnizza::{Index, Link, Reason, Refusal, UncheckedBuild};
use forge::faults::chain::{
    BuildFiles, ByKey, Files, both_resized, encoding_file, index_file, root_block,
};
use forge::faults::encoding::{self, Kind, PageFault};
use forge::faults::index::{FOOTER_HASH, Fault, HASH_LENGTH, IndexFile, all_settings, settings};
use forge::faults::root::random_masks;
use forge::random::Random;
use second::encoding::HEADER;
use second::index::{FOOTER, MOST_ENTRIES, Settings};
use second::root::{BlockParts, Header, MAGICS, write};

/// All locales.
const ALL: u32 = u32::MAX;

type Answer = Result<Resolved, Refusal>;

/// What is sought.
#[derive(Clone, Copy, Debug)]
struct Sought {
    id: u32,
    locale: u32,
    unwanted: u64,
}

/// The id in all blocks.
fn anywhere(id: u32) -> Sought {
    Sought {
        id,
        locale: ALL,
        unwanted: 0,
    }
}

fn absent(link: Link, compared: u32) -> Answer {
    Ok(Resolved::Absent { link, compared })
}

fn refused(link: Link, reason: Reason, place: usize) -> Answer {
    Err(refused_by(link, refusal_at(reason, place)))
}

fn refused_by(link: Link, refusal: Refusal) -> Refusal {
    let mut refusal = refusal;
    refusal.link = Some(link);
    refusal
}

fn in_library_link(link: second::chain::Link) -> Link {
    match link {
        second::chain::Link::Root => Link::Root,
        second::chain::Link::Encoding => Link::Encoding,
        second::chain::Link::Index => Link::Index,
    }
}

fn second_build(files: [&[u8]; 3]) -> second::chain::Build<'_> {
    let [root, encoding, index] = files;
    second::chain::Build {
        root,
        encoding,
        index,
    }
}

/// The chain by the second program.
fn second_resolve(files: [&[u8]; 3], sought: Sought) -> Answer {
    let Sought {
        id,
        locale,
        unwanted,
    } = sought;
    match second::chain::resolve(second_build(files), id, locale, unwanted) {
        Ok(second::chain::Resolved::Found { found, compared }) => {
            Ok(Resolved::Found(in_library_entry(found, compared)))
        }
        Ok(second::chain::Resolved::Absent { link, compared }) => {
            absent(in_library_link(link), compared)
        }
        Err(second::chain::Refused { refusal, link }) => {
            let link = in_library_link(link);
            Err(refused_by(link, in_library_terms(refusal)))
        }
    }
}

/// The chain by the library, after seeing that the second program gives the same.
#[track_caller]
fn compare(files: [&[u8]; 3], sought: Sought) -> Answer {
    let answer = second_resolve(files, sought);
    let [root, encoding, index] = files;
    let build = UncheckedBuild {
        root,
        encoding,
        index,
    };
    let Sought {
        id,
        locale,
        unwanted,
    } = sought;
    let by_library = build.resolve(id, locale, unwanted);
    assert_eq!(by_library, answer, "{sought:?}");
    answer
}

fn slices(files: &Files) -> [&[u8]; 3] {
    files.each_ref().map(Vec::as_slice)
}

/// Whether each file passes its full check.
fn passes(files: [&[u8]; 3]) -> bool {
    let [root, encoding, index] = files;
    second::root::check(root).is_ok()
        && second::encoding::check(encoding).is_ok()
        && second::index::check(index).is_ok()
}

/// An answer on files that pass their full checks is that of reading each of them from first to
/// last, by no more comparisons than the bound says; and only keys of other sizes are refused.
#[track_caller]
fn expect_plain_reading(files: [&[u8]; 3], sought: Sought, answer: Answer) {
    let Sought {
        id,
        locale,
        unwanted,
    } = sought;
    let plain = second::chain::plain_reading(second_build(files), id, locale, unwanted);
    match answer {
        Ok(Resolved::Found(entry)) => {
            let plain = plain.map(|found| in_library_entry(found, entry.compared));
            assert_eq!(plain, Ok(entry));
            assert!(entry.compared <= Index::unchecked(files[2]).bound().unwrap());
        }
        Ok(Resolved::Absent { link, compared }) => {
            assert_eq!(plain.map_err(in_library_link), Err(link));
            assert!(compared <= Index::unchecked(files[2]).bound().unwrap());
        }
        Err(Refusal { reason, .. }) => {
            let sizes = [Reason::EncodingKeyLength, Reason::IndexKeyLength];
            assert!(sizes.contains(&reason), "refused {reason:?}");
        }
    }
}

/// The content key of an id.
fn content_key(id: u32) -> [u8; 16] {
    second::md5::digest(&id.to_be_bytes()).unwrap()
}

/// One of the encoding keys of an id, of this length.
fn encoding_key(id: u32, number: u8, length: usize) -> Vec<u8> {
    let key = [&content_key(id)[..], &[number]].concat();
    second::md5::digest(&key).unwrap()[..length].to_vec()
}

/// The first `count` encoding keys of an id, one after the other.
fn encoding_keys(id: u32, count: u8, length: usize) -> Vec<u8> {
    let keys = (0..count).map(|number| encoding_key(id, number, length));
    keys.flatten().collect()
}

/// The encoded size of an id.
fn size(id: u32) -> u32 {
    7 * id + 1
}

/// The location of an id.
fn location(id: u32) -> u64 {
    u64::from(id) * 0x1_0101 + 5
}

/// An index of the first encoding keys of these ids.
fn index_of(settings: Settings, ids: impl IntoIterator<Item = u32>) -> IndexFile {
    let width = settings.offset_width as usize;
    let entry = |id| {
        let location = location(id).to_be_bytes();
        let rest = [&size(id).to_be_bytes(), &location[8 - width..]].concat();
        (encoding_key(id, 0, settings.key_len()), rest)
    };
    index_file(settings, &ids.into_iter().map(entry).collect())
}

/// An encoding file of these ids, each with two encoding keys.
fn encoding_of(key_lens: [usize; 2], ids: impl IntoIterator<Item = u32>) -> Vec<u8> {
    let [key_len, encoding_key_len] = key_lens;
    let entry = |id| {
        let key = content_key(id)[..key_len].to_vec();
        (key, encoding_keys(id, 2, encoding_key_len))
    };
    encoding_file(key_lens, &ids.into_iter().map(entry).collect())
}

/// The blocks of these ids, each of seven at most, for the locale 2 and with the content flag 4.
fn blocks_of(ids: impl IntoIterator<Item = u32>) -> Vec<BlockParts> {
    let files: Vec<_> = ids.into_iter().map(|id| (id, content_key(id))).collect();
    let blocks = files.chunks(7).map(|files| root_block(2, 4, files));
    blocks.collect()
}

/// No header, a short one, and long ones of version 1 and 2.
fn headers() -> [Option<Header>; 4] {
    let header = |a, b| {
        let magic = MAGICS[0];
        Some(Header { magic, a, b })
    };
    [None, header(3, 1), header(24, 1), header(24, 2)]
}

/// How many ids a whole build has.
const COUNT: u32 = 600;

/// The link of a whole build that does not have this id, where one does not.
fn missing(id: u32) -> Option<Link> {
    let links = [
        None,
        Some(Link::Root),
        Some(Link::Encoding),
        Some(Link::Index),
    ];
    match id < COUNT {
        true => links[id as usize % 4],
        false => Some(Link::Root),
    }
}

/// Builds of many blocks and pages, in which the id tells whether a link does not have it, and
/// which.
#[test]
fn whole_builds() {
    let ids = |link| (0..COUNT).filter(move |&id| missing(id) != Some(link));
    // The keys are so long that they all differ.
    let long_keys = all_settings().filter(|settings| settings.key_len() >= 4);
    for (settings, header) in long_keys.zip(headers().into_iter().cycle()) {
        let files = [
            write(header, &blocks_of(ids(Link::Root))),
            encoding_of([16, settings.key_len()], ids(Link::Encoding)),
            index_of(settings, ids(Link::Index)).bytes,
        ];
        let files = slices(&files);
        assert!(passes(files));
        for id in 0..COUNT + 2 {
            expect_by_id(files, settings.key_len(), id);
        }
    }
}

/// The chain through a whole build, whose index has keys of this length.
#[track_caller]
fn expect_by_id(files: [&[u8]; 3], key_len: usize, id: u32) {
    let answer = compare(files, anywhere(id));
    expect_plain_reading(files, anywhere(id), answer);
    let in_index = Index::unchecked(files[2]).find(encoding_key(id, 0, key_len));
    let in_index = in_index.expect("the index is good");
    match missing(id) {
        None => {
            let entry = in_index.found().expect("it is there");
            assert_eq!(answer, Ok(Resolved::Found(entry)));
            assert_eq!((entry.size, entry.location), (size(id), location(id)));
        }
        Some(Link::Index) => assert_eq!(answer, absent(Link::Index, in_index.compared())),
        Some(link) => assert_eq!(answer, absent(link, 0)),
    }
}

/// A build by hand, with keys of 9 bytes in the index. The id 5 is there; 6 is missing in the
/// index, 7 in the encoding file, and all others in the root file.
struct ByHand {
    blocks: Vec<BlockParts>,
    encoding: Vec<u8>,
    index: IndexFile,
}

impl ByHand {
    const KEY_LEN: usize = 9;

    fn new() -> Self {
        let settings = settings(Self::KEY_LEN as u32, 5);
        Self {
            blocks: blocks_of(5..=7),
            encoding: encoding_of([16, Self::KEY_LEN], 5..=6),
            index: index_of(settings, [5]),
        }
    }

    fn root(&self) -> Vec<u8> {
        write(None, &self.blocks)
    }

    /// Root files of which each is refused, and how.
    fn bad_roots(&self) -> Vec<(Answer, Vec<u8>)> {
        let good = self.root();
        let header = |a, b| {
            let magic = MAGICS[1];
            write(Some(Header { magic, a, b }), &self.blocks)
        };
        let mut outside = root_block(0, 0, &[(1, [0; 16])]);
        outside.records[0].delta = -1;
        let outside = write(None, &[&self.blocks[..], &[outside]].concat());
        let refused = |reason, place| refused(Link::Root, reason, place);
        vec![
            (
                refused(Reason::BlockCut, good.len()),
                [&good[..], &[0]].concat(),
            ),
            (
                refused(Reason::BlockCut, 0),
                good[..good.len() - 1].to_vec(),
            ),
            (refused(Reason::IdRange, good.len()), outside),
            (refused(Reason::RootHeaderSize, 0), header(19, 3)),
            (refused(Reason::RootHeaderCut, 0), MAGICS[0].to_vec()),
            (
                refused(Reason::RootHeaderCut, 0),
                header(99, 2)[..98].to_vec(),
            ),
            (refused(Reason::RootVersion, 0), header(20, 4)),
        ]
    }

    /// Encoding files of which each is refused, and how.
    fn bad_encodings(&self) -> Vec<(Answer, Vec<u8>)> {
        let with = |at: usize, value: u8| {
            let mut file = self.encoding.clone();
            file[at] = value;
            file
        };
        // Behind the spec table and the page's first key and hash: a count that the page cannot
        // hold.
        let over = with(HEADER + 2 + 16 + 16, 255);
        let refused = |reason| refused(Link::Encoding, reason, 0);
        vec![
            (refused(Reason::NotEncoding), Vec::new()),
            (refused(Reason::NotEncoding), with(0, b'M')),
            (refused(Reason::EncodingHeader), with(2, 2)),
            (refused(Reason::EncodingHeader), with(3, 17)),
            (
                refused(Reason::EncodingCut),
                self.encoding[..self.encoding.len() - 1].to_vec(),
            ),
            (refused(Reason::SpecTableOpen), with(HEADER + 1, b'z')),
            (
                refused(Reason::EncodingKeyLength),
                encoding_of([15, Self::KEY_LEN], 5..=6),
            ),
            (refused(Reason::EntryOverPage), over),
        ]
    }

    /// Indexes of which each is refused, and how: with keys of the right size and of another.
    fn bad_indexes(&self) -> Vec<(Answer, Vec<u8>)> {
        let refused_at = |reason, place| refused(Link::Index, reason, place);
        let refused = |reason| refused_at(reason, 0);
        let mut indexes = Vec::new();
        for index in [self.index.clone(), index_of(settings(8, 5), [5])] {
            let with = |change: &dyn Fn(&mut IndexFile)| {
                let mut file = index.clone();
                change(&mut file);
                file.bytes
            };
            let short = index.bytes[index.bytes.len() - FOOTER + 1..].to_vec();
            indexes.extend([
                (refused(Reason::IndexShort), Vec::new()),
                (refused(Reason::IndexShort), short),
                (
                    refused_at(Reason::FooterHashLength, HASH_LENGTH),
                    with(&|file| file.footer()[HASH_LENGTH] = 16),
                ),
                (
                    refused(Reason::FooterHash),
                    with(&|file| file.footer()[FOOTER_HASH.start] ^= 1),
                ),
                (
                    refused(Reason::EntryCount),
                    with(&|file| file.set_count(MOST_ENTRIES as u32 + 1)),
                ),
                (
                    refused(Reason::IndexLength),
                    with(&|file| file.set_count(1000)),
                ),
            ]);
        }
        for key_length in (1..=16).filter(|&length| length as usize != Self::KEY_LEN) {
            let other = index_of(settings(key_length, 5), [5]).bytes;
            indexes.push((refused(Reason::IndexKeyLength), other));
        }
        indexes
    }
}

/// A good file, the refused ones, and random bytes.
fn with_others(random: &mut Random, good: &[u8], bad: &[(Answer, Vec<u8>)]) -> Vec<Vec<u8>> {
    let mut files: Vec<_> = bad.iter().map(|(_, file)| file.clone()).collect();
    files.push(good.to_vec());
    files.push(random.bytes(5000));
    files
}

/// The root file does not find. Later files are nothing to it, be they good, refused, or random
/// bytes.
#[test]
fn the_root_file_does_not_find() {
    let mut random = Random::of_test();
    let build = ByHand::new();
    let root = &build.root()[..];
    let bad_roots = build.bad_roots();
    let encodings = with_others(&mut random, &build.encoding, &build.bad_encodings());
    let indexes = with_others(&mut random, &build.index.bytes, &build.bad_indexes());
    let absent = [0, 4, 8, u32::MAX].map(|id| (absent(Link::Root, 0), root, id));
    let refused = bad_roots
        .iter()
        .flat_map(|(expected, file)| [5, 6, 7, 8].map(|id| (*expected, &file[..], id)));
    for (expected, root, id) in absent.into_iter().chain(refused) {
        for encoding in &encodings {
            for index in &indexes {
                assert_eq!(compare([root, encoding, index], anywhere(id)), expected);
            }
        }
    }
}

/// The encoding file does not find, whatever the index is.
#[test]
fn the_encoding_file_does_not_find() {
    let mut random = Random::of_test();
    let build = ByHand::new();
    let root = build.root();
    let bad_encodings = build.bad_encodings();
    let indexes = with_others(&mut random, &build.index.bytes, &build.bad_indexes());
    let absent = (absent(Link::Encoding, 0), &build.encoding[..], 7);
    let refused = bad_encodings
        .iter()
        .flat_map(|(expected, file)| [5, 6].map(|id| (*expected, &file[..], id)));
    for (expected, encoding, id) in refused.chain([absent]) {
        for index in &indexes {
            assert_eq!(compare([&root, encoding, index], anywhere(id)), expected);
        }
    }
}

#[test]
fn the_index_refuses() {
    let build = ByHand::new();
    let root = build.root();
    for (expected, index) in build.bad_indexes() {
        for id in [5, 6] {
            let files = [&root[..], &build.encoding, &index];
            assert_eq!(compare(files, anywhere(id)), expected);
        }
    }
}

#[test]
fn the_build_by_hand() {
    let build = ByHand::new();
    let files = [build.root(), build.encoding, build.index.bytes];
    let files = slices(&files);
    assert!(passes(files));
    let entry = Entry {
        page: Page(0),
        slot: Slot(0),
        size: size(5),
        location: location(5),
        // The last key, the slot, and that once more.
        compared: 3,
    };
    assert_eq!(compare(files, anywhere(5)), Ok(Resolved::Found(entry)));
    let above = encoding_key(6, 0, ByHand::KEY_LEN) > encoding_key(5, 0, ByHand::KEY_LEN);
    let compared = if above { 1 } else { 3 };
    assert_eq!(compare(files, anywhere(6)), absent(Link::Index, compared));
    let empty = index_of(build.index.settings, []).bytes;
    for id in [5, 6] {
        let files = [files[0], files[1], &empty];
        assert_eq!(compare(files, anywhere(id)), absent(Link::Index, 0));
    }
}

/// All key sizes of the encoding file with all of the index. What would be found by a key that is
/// cut or filled up is there.
#[test]
fn key_sizes() {
    const ID: u32 = 5;
    let root = write(None, &blocks_of([ID]));
    let entry = |key| (key, vec![0; 8]);
    for key_len in 1..=16 {
        for encoding_key_len in 1..=16 {
            let encoding_key = encoding_key(ID, 0, encoding_key_len);
            let content_keys = both_resized(&content_key(ID), key_len);
            let entries = content_keys.map(|key| (key, encoding_key.clone()));
            let encoding = encoding_file([key_len, encoding_key_len], &entries.into());
            for index_key_len in 1..=16 {
                let keys = both_resized(&encoding_key, index_key_len);
                let entries: ByKey = keys.map(entry).into();
                let index = index_file(settings(index_key_len as u32, 4), &entries);
                let files = [&root[..], &encoding, &index.bytes];
                assert!(passes(files));
                let answer = compare(files, anywhere(ID));
                if key_len != 16 {
                    let reason = Reason::EncodingKeyLength;
                    assert_eq!(answer, refused(Link::Encoding, reason, 0));
                } else if encoding_key_len != index_key_len {
                    let reason = Reason::IndexKeyLength;
                    assert_eq!(answer, refused(Link::Index, reason, 0));
                } else {
                    assert!(matches!(answer, Ok(Resolved::Found(_))));
                }
            }
        }
    }
}

/// Of several encoding keys the first is followed, be it the lowest or not, whether or not the
/// others are in the index.
#[test]
fn the_first_encoding_key() {
    const ID: u32 = 5;
    let root = write(None, &blocks_of([ID]));
    for (key_len, count) in [(16, 2), (16, 3), (9, 30), (16, 60), (3, 255)] {
        for rotated in 0..count {
            let mut keys: Vec<_> = (0..count)
                .map(|number| encoding_key(ID, number, key_len))
                .collect();
            keys.rotate_left(rotated.into());
            let run = (content_key(ID).to_vec(), keys.concat());
            let encoding = encoding_file([16, key_len], &[run].into());
            let index = |keys: &[Vec<u8>]| {
                let entries = keys.iter().zip(0u64..);
                let entries = entries.map(|(key, place)| (key.clone(), place.to_be_bytes().into()));
                index_file(settings(key_len as u32, 4), &entries.collect()).bytes
            };
            let answer = |index: &[u8]| compare([&root, &encoding, index], anywhere(ID)).unwrap();
            for index in [index(&keys), index(&keys[..1])] {
                let entry = answer(&index).found().expect("the first is there");
                assert_eq!(entry.location, 0);
            }
            let others = answer(&index(&keys[1..]));
            assert!(matches!(
                others,
                Resolved::Absent {
                    link: Link::Index,
                    ..
                }
            ));
        }
    }
}

/// The masks choose the block, bit by bit, and the block the file.
#[test]
fn masks() {
    let settings = settings(16, 6);
    let encoding = encoding_of([16, 16], 0..2);
    let index = index_of(settings, 0..2).bytes;
    for header in headers() {
        for bit in 0..32 {
            let flag = 1 << bit;
            let blocks = [
                root_block(flag, flag, &[(5, content_key(0))]),
                root_block(ALL, 0, &[(5, content_key(1))]),
            ];
            let root = write(header, &blocks);
            let expect = |locale, unwanted, file: Option<u32>| {
                let sought = Sought {
                    id: 5,
                    locale,
                    unwanted,
                };
                let answer = compare([&root, &encoding, &index], sought);
                match file {
                    Some(file) => {
                        let entry = answer.unwrap().found().expect("it is there");
                        assert_eq!(entry.size, size(file));
                    }
                    None => assert_eq!(answer, absent(Link::Root, 0)),
                }
            };
            expect(ALL, 0, Some(0));
            expect(flag, 0, Some(0));
            expect(!flag, 0, Some(1));
            expect(0, 0, None);
            expect(flag, flag.into(), Some(1));
            expect(flag, !u64::from(flag), Some(0));
            expect(ALL, u64::from(u32::MAX) << 32, Some(0));
            expect(ALL, u64::MAX, Some(1));
        }
    }
}

/// An id of a build, mostly in all blocks.
fn any_sought(random: &mut Random, build: &BuildFiles) -> Sought {
    let id = build.root.any_id(random);
    let (locale, unwanted) = match random.up_to(3) {
        0 => random_masks(random),
        _ => return anywhere(id),
    };
    Sought {
        id,
        locale,
        unwanted,
    }
}

/// In good builds each answer is that of the plain reading. Faults that no link looks at leave it
/// as it is: page hashes, padding, and the encoding pages of the encoding file.
#[test]
fn what_is_not_looked_at() {
    let mut random = Random::of_test();
    for _ in 0..300 {
        let good = BuildFiles::random(&mut random);
        let mut spoilt = good.clone();
        for page in 0..good.index.pages() {
            let padding = !spoilt.index.padding(page).is_empty();
            let faults = [Fault::PageHash(page), Fault::Padding(page)];
            let faults = &faults[..1 + usize::from(padding)];
            spoilt.index.put_faults(&mut random, faults);
        }
        let faults = good.encoding.faults();
        let unseen = faults.into_iter().filter(|fault| {
            use encoding::Fault::Page;
            matches!(
                fault,
                Page(_, _, PageFault::Hash) | Page(Kind::Encoding, ..)
            )
        });
        let unseen: Vec<_> = unseen.collect();
        spoilt.encoding.put_faults(&mut random, &unseen);
        let [good_files, spoilt_files] = [good.files(), spoilt.files()];
        for _ in 0..20 {
            let sought = any_sought(&mut random, &good);
            let answer = compare(slices(&good_files), sought);
            expect_plain_reading(slices(&good_files), sought, answer);
            assert_eq!(compare(slices(&spoilt_files), sought), answer);
        }
    }
}
