//! Refusals: why, where, and in the chain by which link.

use std::error::Error;
use std::fmt;

/// Makes the reasons from their table: one row a number.
macro_rules! reasons {
    ($($name:ident = $number:literal, $subject:ident, $words:literal $(, $place:literal)?;)*) => {
        /// Why something was refused. Each reason has a number, which never changes.
        ///
        /// ```
        /// use dwarnizza::{Index, Reason};
        ///
        /// let refused = Index::check(b"no index").unwrap_err();
        /// assert_eq!(refused.reason, Reason::IndexShort);
        /// assert_eq!(refused.reason.number(), 1);
        /// ```
        #[derive(Clone, Copy, Debug, PartialEq, Eq, PartialOrd, Ord, Hash)]
        #[non_exhaustive]
        #[repr(u32)]
        pub enum Reason {
            $(
                #[doc = concat!("Refusal ", $number, ": ", $words, $("; place: ", $place,)? ".")]
                $name = $number,
            )*
        }

        impl Reason {
            const ALL: &[Self] = &[$(Self::$name),*];

            /// What was wrong, in words.
            ///
            /// ```
            /// assert_eq!(dwarnizza::Reason::FooterHash.words(), "footer hash wrong");
            /// ```
            pub const fn words(self) -> &'static str {
                match self { $(Self::$name => $words,)* }
            }

            /// What its place counts; empty where the number names no place.
            ///
            /// ```
            /// use dwarnizza::Reason;
            ///
            /// assert_eq!(Reason::IndexOrder.place_words(), "entry");
            /// assert_eq!(Reason::IndexShort.place_words(), "");
            /// ```
            pub const fn place_words(self) -> &'static str {
                match self { $(Self::$name => concat!($($place)?),)* }
            }

            /// What it is about.
            ///
            /// ```
            /// use dwarnizza::{Reason, Subject};
            ///
            /// assert_eq!(Reason::FooterHash.subject(), Subject::IndexOpening);
            /// ```
            pub const fn subject(self) -> Subject {
                match self { $(Self::$name => Subject::$subject,)* }
            }
        }
    };
}

// Name, number, subject, words, and what the place counts where the number names one.
// `include/dwarnizza.h` has the same rows for C and Python, and N1 of docs/RULES.md the rule of
// each.
reasons! {
    IndexShort = 1, IndexOpening, "index under 28 bytes";
    FooterHash = 3, IndexOpening, "footer hash wrong";
    EntryCount = 4, IndexOpening, "more than 8,388,608 entries";
    IndexLength = 5, IndexOpening, "file length wrong";
    IndexPageHash = 6, IndexPages, "page hash wrong", "page";
    IndexPadding = 7, IndexPages, "padding not zero", "page";
    IndexOrder = 8, IndexPages, "key not above the one before", "entry";
    LastKey = 9, IndexPages, "stored last key wrong", "page";
    IndexKeyLength = 10, Call, "key not of the index's key length";
    Settings = 11, Call, "settings wrong";
    ListLength = 12, Call, "list not whole entries";
    OutputShort = 13, Call, "output shorter than what is to be written";
    NotBlte = 20, Envelope, "envelope under 8 bytes, or not BLTE";
    EnvelopeHeader = 21, Envelope, "envelope's header size, flags or chunk count wrong, or header past the end";
    ChunkSizes = 22, Envelope, "an empty chunk, or sizes not adding up to the rest";
    ChunkHash = 23, Envelope, "chunk hash wrong", "chunk";
    ChunkMode = 24, Envelope, "chunk mode not N", "chunk";
    DecodedSize = 25, Envelope, "decoded size not encoded size less 1", "chunk";
    ContentOutputShort = 26, Call, "output shorter than the content";
    EnvelopeKey = 27, Envelope, "envelope key not the one given";
    NotEncoding = 30, EncodingHeader, "encoding file under 22 bytes, or not EN";
    EncodingHeader = 31, EncodingHeader, "a header field of the encoding file wrong";
    EncodingCut = 32, Encoding, "parts of the encoding file run past its end";
    SpecTableOpen = 33, Encoding, "last spec not closed";
    EncodingPageHash = 34, Encoding, "page hash wrong", "page";
    EntryOverPage = 35, Encoding, "entry over the page's end", "page";
    EncodingOrder = 36, Encoding, "key not above the one before", "page";
    FirstKey = 37, Encoding, "first key wrong", "page";
    SpecNumber = 38, Encoding, "spec number past the table";
    EncodingKeyLength = 39, Call, "sought key not of the encoding file's key length";
    BlockCut = 40, Root, "block cut", "block at byte";
    IdRange = 41, Root, "id outside its range", "block at byte";
    RootHeaderSize = 42, Root, "root header size from 16 to 19";
    RootHeaderCut = 43, Root, "root header cut";
    RootVersion = 44, Root, "root version 4";
    HashLimit = 50, Call, "more than 2^48 bytes hashed";
    KeyTextLength = 60, Call, "key text not two characters for each byte of the key";
    HexDigit = 61, Call, "not a hex digit", "digit";
    ListingInput = 70, Call, "listing input above 65,536 bytes";
    FooterVersion = 102, IndexOpening, "footer version wrong", "footer byte";
    FooterReserved = 103, IndexOpening, "reserved footer byte not zero", "footer byte";
    FooterPageSize = 104, IndexOpening, "footer page size wrong", "footer byte";
    FooterOffsetWidth = 105, IndexOpening, "footer offset width wrong", "footer byte";
    FooterSizeWidth = 106, IndexOpening, "footer size width wrong", "footer byte";
    FooterKeyLength = 107, IndexOpening, "footer key length wrong", "footer byte";
    FooterHashLength = 108, IndexOpening, "footer hash length wrong", "footer byte";
    PathLength = 110, Call, "path above 1,024 bytes";
    ListFalls = 161, Call, "list falls", "id";
}

/// What a reason is about.
///
/// ```
/// use dwarnizza::{Reason, Subject};
///
/// let opening = Reason::all().filter(|reason| reason.subject() == Subject::IndexOpening);
/// assert_eq!(opening.last(), Some(Reason::FooterHashLength));
/// ```
#[derive(Clone, Copy, Debug, PartialEq, Eq, Hash)]
pub enum Subject {
    /// The length and the footer of an index: its opening checks.
    IndexOpening,
    /// The pages of an index.
    IndexPages,
    /// An envelope.
    Envelope,
    /// The 22 bytes that an encoding file begins with.
    EncodingHeader,
    /// The rest of an encoding file: its specs and pages.
    Encoding,
    /// A root file.
    Root,
    /// What a call was given beside a file: a key, a text, a path, settings, a list, or an output.
    Call,
}

impl Reason {
    /// The number of the reason.
    ///
    /// ```
    /// assert_eq!(dwarnizza::Reason::HexDigit.number(), 61);
    /// ```
    pub const fn number(self) -> u32 {
        self as u32
    }

    /// The reason with this number; none where no reason has it.
    ///
    /// ```
    /// use dwarnizza::Reason;
    ///
    /// assert_eq!(Reason::from_number(61), Some(Reason::HexDigit));
    /// assert_eq!(Reason::from_number(0), None);
    /// ```
    pub fn from_number(number: u32) -> Option<Self> {
        Self::all().find(|reason| reason.number() == number)
    }

    /// All reasons, by number.
    ///
    /// ```
    /// use dwarnizza::Reason;
    ///
    /// assert_eq!(Reason::all().next(), Some(Reason::IndexShort));
    /// ```
    pub fn all() -> impl Iterator<Item = Self> {
        Self::ALL.iter().copied()
    }
}

/// What was refused, and where.
///
/// Its text has the number, the place where there is one, the link where there is one, and the
/// words of the reason.
///
/// ```
/// use dwarnizza::{Key, Reason};
///
/// let refused = Key::from_text("04g7", 2).unwrap_err();
/// assert_eq!((refused.reason, refused.place, refused.link), (Reason::HexDigit, 2, None));
/// assert_eq!(refused.to_string(), "refused 61 at 2: not a hex digit (digit 2)");
/// ```
#[derive(Clone, Copy, Debug, PartialEq, Eq, Hash)]
#[non_exhaustive]
pub struct Refusal {
    /// What was wrong.
    pub reason: Reason,
    /// Where: what it counts goes by the reason; 0 where the reason names no place.
    pub place: u64,
    /// Which link of the chain refused; none outside a chain.
    pub link: Option<Link>,
}

impl Refusal {
    /// A refusal outside a chain, as the library would give it.
    ///
    /// ```
    /// use dwarnizza::{Index, Reason, Refusal};
    ///
    /// let refused = Refusal::new(Reason::IndexShort, 0);
    /// assert_eq!(Index::check(b"no index").unwrap_err(), refused);
    /// ```
    pub const fn new(reason: Reason, place: u64) -> Self {
        Self {
            reason,
            place,
            link: None,
        }
    }

    /// The number of its reason.
    ///
    /// ```
    /// assert_eq!(dwarnizza::Key::from_text("417", 2).unwrap_err().number(), 60);
    /// ```
    pub const fn number(self) -> u32 {
        self.reason.number()
    }
}

impl fmt::Display for Refusal {
    fn fmt(&self, f: &mut fmt::Formatter<'_>) -> fmt::Result {
        let (place, counted) = (self.place, self.reason.place_words());
        write!(f, "refused {}", self.number())?;
        if !counted.is_empty() {
            write!(f, " at {place}")?;
        }
        if let Some(link) = self.link {
            write!(f, " by the {link}")?;
        }
        write!(f, ": {}", self.reason.words())?;
        if !counted.is_empty() {
            write!(f, " ({counted} {place})")?;
        }
        Ok(())
    }
}

impl Error for Refusal {}

/// A link of the chain from a file number to a location.
///
/// ```
/// assert_eq!(dwarnizza::Link::Encoding.to_string(), "encoding file");
/// ```
#[derive(Clone, Copy, Debug, PartialEq, Eq, PartialOrd, Ord, Hash)]
pub enum Link {
    /// File number to content key, link 1.
    Root,
    /// Content key to encoding key, link 2.
    Encoding,
    /// Encoding key to size and location, link 3.
    Index,
}

impl fmt::Display for Link {
    fn fmt(&self, f: &mut fmt::Formatter<'_>) -> fmt::Result {
        f.write_str(match self {
            Link::Root => "root file",
            Link::Encoding => "encoding file",
            Link::Index => "index",
        })
    }
}

#[cfg(test)]
mod tests {
    use super::*;

    fn said(reason: Reason, place: u64, link: Option<Link>) -> String {
        let mut refusal = Refusal::new(reason, place);
        refusal.link = link;
        refusal.to_string()
    }

    /// The name of a constant, as the reasons have it: `INDEX_SHORT` is `IndexShort`.
    fn name_of(constant: &str) -> String {
        let words = constant.split('_').map(|word| {
            let (first, rest) = word.split_at(1);
            first.to_string() + &rest.to_lowercase()
        });
        words.collect()
    }

    /// The reasons: name, number and place.
    fn reasons() -> Vec<(String, u32, String)> {
        let row = |reason: Reason| {
            let place = reason.place_words().to_string();
            (format!("{reason:?}"), reason.number(), place)
        };
        Reason::all().map(row).collect()
    }

    /// The rows of the header's table: name, number, words and place.
    fn header_rows() -> Vec<[&'static str; 4]> {
        let header = include_str!("../../../include/dwarnizza.h");
        let rows = header
            .lines()
            .filter_map(|line| line.trim().strip_prefix("X(DWARNIZZA_"));
        let row = |row: &'static str| {
            let (name, rest) = row.split_once(", ")?;
            let (number, rest) = rest.split_once(", \"")?;
            let (words, rest) = rest.split_once("\", \"")?;
            let (place, _) = rest.split_once("\")")?;
            Some([name, number, words, place])
        };
        rows.map(|text| row(text).expect(text)).collect()
    }

    /// The rows of N1: number, name and place, the place as the header has it.
    fn n1_rows() -> Vec<[&'static str; 3]> {
        let rules = include_str!("../../../docs/RULES.md");
        let (_, n1) = rules.split_once("**N1 Numbers.**").expect("it is there");
        let (n1, _) = n1.split_once("**N2 Orders.**").expect("N2 follows");
        let rows = n1.lines().filter_map(|line| {
            let mut fields = line.strip_prefix("| ")?.split(" | ");
            let (number, name) = (fields.next()?, fields.next()?.strip_prefix('`')?);
            let place = match fields.nth(1)? {
                "–" => "",
                "byte offset of the block" => "block at byte",
                "offset of the character" => "digit",
                "offset in the footer" => "footer byte",
                counted => counted,
            };
            Some([number, name.trim_end_matches('`'), place])
        });
        rows.collect()
    }

    fn row(name: &str, number: &str, place: &str) -> (String, u32, String) {
        let number = number.parse().expect("it is a number");
        (name_of(name), number, place.to_string())
    }

    #[test]
    fn the_header_has_the_reasons_and_their_words() {
        let rows = header_rows();
        let in_header = rows
            .iter()
            .map(|[name, number, _, place]| row(name, number, place));
        assert_eq!(in_header.collect::<Vec<_>>(), reasons());
        let in_header = rows.iter().map(|[_, _, words, _]| *words);
        let words = Reason::all().map(Reason::words);
        assert_eq!(in_header.collect::<Vec<_>>(), words.collect::<Vec<_>>());
    }

    #[test]
    fn n1_has_the_reasons() {
        let rows = n1_rows().into_iter();
        let in_rules = rows.map(|[number, name, place]| row(name, number, place));
        assert_eq!(in_rules.collect::<Vec<_>>(), reasons());
    }

    #[test]
    fn each_number_tells_its_reason_and_each_reason_has_words() {
        for reason in Reason::all() {
            assert_eq!(Reason::from_number(reason.number()), Some(reason));
            assert!(!reason.words().is_empty());
            assert!(said(reason, 0, None).contains(reason.words()));
        }
    }

    /// 2 was a field of the footer: 102 to 108 stand for it.
    #[test]
    fn a_retired_number_is_not_given_again() {
        assert_eq!(Reason::from_number(2), None);
    }

    #[test]
    fn the_place_is_said_exactly_where_the_table_names_one() {
        for reason in Reason::all() {
            let (number, place) = (reason.number(), reason.place_words());
            let said = said(reason, 5, None);
            if place.is_empty() {
                assert!(said.starts_with(&format!("refused {number}: ")), "{said}");
                assert!(!said.ends_with(" 5)"), "{said}");
            } else {
                let start = format!("refused {number} at 5: ");
                assert!(said.starts_with(&start), "{said}");
                assert!(said.ends_with(&format!(" ({place} 5)")), "{said}");
            }
        }
    }

    #[test]
    fn whole_sentences() {
        assert_eq!(
            said(Reason::IndexOrder, 3, None),
            "refused 8 at 3: key not above the one before (entry 3)"
        );
        assert_eq!(
            said(Reason::HashLimit, 0, None),
            "refused 50: more than 2^48 bytes hashed"
        );
        assert_eq!(
            said(Reason::IndexKeyLength, 0, Some(Link::Index)),
            "refused 10 by the index: key not of the index's key length"
        );
        assert_eq!(
            said(Reason::BlockCut, 12, Some(Link::Root)),
            "refused 40 at 12 by the root file: block cut (block at byte 12)"
        );
    }
}
