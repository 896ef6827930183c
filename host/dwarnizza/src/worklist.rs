//! Worklists: rows and fields of separated text, as spreadsheets and scripts export them (RFC 4180).
//!
//! A row ends at LF, CR LF, a CR that no LF follows, or the text's end. Its fields stand between
//! separators. A field that begins with a quote is quoted: it goes up to its closing quote, may hold
//! separators and line ends, and two quotes in it stand for one. A row is malformed where something
//! else than a separator or a line end follows a closing quote, and where a quoted field is never
//! closed; reading goes on with the next row.
//!
//! Every byte is of exactly one row: the rows with their line ends, one after the other, are the
//! text.
//!
//! ```
//! use dwarnizza::{Worklist, file_number};
//!
//! let list = Worklist::new(b"417,\"sword, long\"\r\n418,shield\n", b',')?;
//! let ids = list.rows().map(|row| file_number(&row.field(0).expect("it has one").content()));
//! assert_eq!(ids.collect::<Result<Vec<_>, _>>(), Ok(vec![417, 418]));
//! # Ok::<(), dwarnizza::Refusal>(())
//! ```

use std::borrow::Cow;
use std::error::Error;
use std::fmt;
use std::iter::FusedIterator;

use crate::answer::{Words, part, size, unrefused};
use crate::library;
use crate::refusal::Refusal;

/// A text and the separator of its fields.
///
/// ```
/// use dwarnizza::Worklist;
///
/// let list = Worklist::new(b"417;418", b';')?;
/// assert_eq!(list.rows().count(), 1);
/// # Ok::<(), dwarnizza::Refusal>(())
/// ```
#[derive(Clone, Copy, Debug, PartialEq, Eq)]
pub struct Worklist<'a> {
    text: &'a [u8],
    separator: u8,
}

impl<'a> Worklist<'a> {
    /// This text with this separator. The text may be any bytes.
    ///
    /// Refused with [`Settings`](crate::Reason::Settings) where the separator is a quote, CR or LF.
    ///
    /// ```
    /// use dwarnizza::{Reason, Worklist};
    ///
    /// assert!(Worklist::new(b"417\t418", b'\t').is_ok());
    /// let refused = Worklist::new(b"417", b'"').unwrap_err();
    /// assert_eq!(refused.reason, Reason::Settings);
    /// ```
    pub fn new(text: &'a [u8], separator: u8) -> Result<Self, Refusal> {
        library::worklist_row(&[], 0, separator.into())?;
        Ok(Self { text, separator })
    }

    /// Its rows, from the first byte on: each once, those that are malformed too.
    ///
    /// ```
    /// use dwarnizza::Worklist;
    ///
    /// let list = Worklist::new(b"417\r\n\n\"418\"x\n419", b',')?;
    /// let rows: Vec<&[u8]> = list.rows().map(|row| row.bytes()).collect();
    /// assert_eq!(rows, [&b"417"[..], b"", b"\"418\"x", b"419"]);
    /// # Ok::<(), dwarnizza::Refusal>(())
    /// ```
    pub fn rows(self) -> Rows<'a> {
        Rows { list: self, at: 0 }
    }

    /// The row that begins at this byte; none at the text's end and behind it.
    fn row(self, at: usize) -> Option<Row<'a>> {
        let row = library::worklist_row(self.text, at, self.separator.into());
        let words = unrefused(row).found()?;
        Some(Row::from_words(self, at, words))
    }
}

/// The rows of a worklist, by [`Worklist::rows`].
///
/// ```
/// use dwarnizza::Worklist;
///
/// let mut rows = Worklist::new(b"417\n418\n", b',')?.rows();
/// assert_eq!(rows.next().map(|row| row.bytes()), Some(&b"417"[..]));
/// assert_eq!(rows.next().map(|row| row.bytes()), Some(&b"418"[..]));
/// assert_eq!(rows.next(), None);
/// # Ok::<(), dwarnizza::Refusal>(())
/// ```
#[derive(Clone, Debug)]
pub struct Rows<'a> {
    list: Worklist<'a>,
    /// Where the next row begins.
    at: usize,
}

impl<'a> Iterator for Rows<'a> {
    type Item = Row<'a>;

    fn next(&mut self) -> Option<Row<'a>> {
        let row = self.list.row(self.at)?;
        self.at = row.next;
        Some(row)
    }
}

impl FusedIterator for Rows<'_> {}

/// A row of a worklist.
///
/// ```
/// use dwarnizza::Worklist;
///
/// let list = Worklist::new(b"a,\"b,c\"\nd", b',')?;
/// let row = list.rows().next().expect("it has one");
/// assert_eq!((row.start(), row.end(), row.next()), (0, 7, 8));
/// assert_eq!(row.fields(), Ok(2));
/// # Ok::<(), dwarnizza::Refusal>(())
/// ```
#[derive(Clone, Copy, Debug, PartialEq, Eq)]
pub struct Row<'a> {
    list: Worklist<'a>,
    start: usize,
    end: usize,
    next: usize,
    fields: Result<usize, Malformed>,
}

impl<'a> Row<'a> {
    /// The row of this start that an answer names.
    fn from_words(list: Worklist<'a>, start: usize, words: Words) -> Self {
        let [end, next, fields, malformed, place, ..] = words.map(size);
        Self {
            list,
            start,
            end,
            next,
            fields: match malformed {
                0 => Ok(fields),
                _ => Err(Malformed { place }),
            },
        }
    }

    /// Where it begins in the text.
    ///
    /// ```
    /// # use dwarnizza::Worklist;
    /// let rows = Worklist::new(b"417\n418", b',')?.rows();
    /// assert_eq!(rows.map(|row| row.start()).collect::<Vec<_>>(), [0, 4]);
    /// # Ok::<(), dwarnizza::Refusal>(())
    /// ```
    pub fn start(self) -> usize {
        self.start
    }

    /// Where it ends in the text, before its line end.
    ///
    /// ```
    /// # use dwarnizza::Worklist;
    /// let rows = Worklist::new(b"417\n418", b',')?.rows();
    /// assert_eq!(rows.map(|row| row.end()).collect::<Vec<_>>(), [3, 7]);
    /// # Ok::<(), dwarnizza::Refusal>(())
    /// ```
    pub fn end(self) -> usize {
        self.end
    }

    /// Where the next row begins: behind the line end, or at the text's end.
    ///
    /// ```
    /// # use dwarnizza::Worklist;
    /// let rows = Worklist::new(b"417\r\n418", b',')?.rows();
    /// assert_eq!(rows.map(|row| row.next()).collect::<Vec<_>>(), [5, 8]);
    /// # Ok::<(), dwarnizza::Refusal>(())
    /// ```
    pub fn next(self) -> usize {
        self.next
    }

    /// Its bytes, without the line end.
    ///
    /// ```
    /// # use dwarnizza::Worklist;
    /// let rows = Worklist::new(b"417,x\r\n", b',')?.rows();
    /// assert_eq!(rows.map(|row| row.bytes()).collect::<Vec<_>>(), [b"417,x"]);
    /// # Ok::<(), dwarnizza::Refusal>(())
    /// ```
    pub fn bytes(self) -> &'a [u8] {
        &self.list.text[self.start..self.end]
    }

    /// How many fields it has, which is 1 of an empty row; or where it is malformed.
    ///
    /// ```
    /// use dwarnizza::Worklist;
    /// use dwarnizza::worklist::Malformed;
    ///
    /// let list = Worklist::new(b"417,x\n\n\"418\"x,y\n", b',')?;
    /// let fields: Vec<_> = list.rows().map(|row| row.fields()).collect();
    /// assert_eq!(fields, [Ok(2), Ok(1), Err(Malformed { place: 12 })]);
    /// # Ok::<(), dwarnizza::Refusal>(())
    /// ```
    pub fn fields(self) -> Result<usize, Malformed> {
        self.fields
    }

    /// Its field of a column, from 0; none where it has no such field or is malformed.
    ///
    /// ```
    /// # use dwarnizza::Worklist;
    /// let row = Worklist::new(b"417,x\n", b',')?.rows().next().expect("it has one");
    /// assert_eq!(row.field(1).map(|field| field.bytes), Some(&b"x"[..]));
    /// assert_eq!(row.field(2), None);
    /// # Ok::<(), dwarnizza::Refusal>(())
    /// ```
    pub fn field(self, column: usize) -> Option<Field<'a>> {
        let Worklist { text, separator } = self.list;
        let field = library::worklist_field(text, self.start, separator.into(), column);
        let [place, length, quoted, ..] = unrefused(field).found()?;
        Some(Field {
            place: size(place),
            bytes: part(text, place, length),
            quoted: quoted == 1,
        })
    }
}

/// Where a row is malformed.
///
/// ```
/// use dwarnizza::Worklist;
///
/// let row = Worklist::new(b"417,\"x\n", b',')?.rows().next().expect("it has one");
/// let malformed = row.fields().unwrap_err();
/// assert_eq!(malformed.place, 4);
/// assert_eq!(malformed.to_string(), "malformed at byte 4");
/// # Ok::<(), dwarnizza::Refusal>(())
/// ```
#[derive(Clone, Copy, Debug, PartialEq, Eq, Hash)]
pub struct Malformed {
    /// The byte of the text, from 0: what follows a closing quote, or the opening quote of a field
    /// that is never closed.
    pub place: usize,
}

impl fmt::Display for Malformed {
    fn fmt(&self, f: &mut fmt::Formatter<'_>) -> fmt::Result {
        write!(f, "malformed at byte {}", self.place)
    }
}

impl Error for Malformed {}

/// A field of a row, by [`Row::field`].
///
/// ```
/// # use dwarnizza::Worklist;
/// let row = Worklist::new(b"417,\"x\"\n", b',')?.rows().next().expect("it has one");
/// let field = row.field(1).expect("it has two");
/// assert_eq!((field.place, field.bytes, field.quoted), (4, &b"\"x\""[..], true));
/// # Ok::<(), dwarnizza::Refusal>(())
/// ```
#[derive(Clone, Copy, Debug, PartialEq, Eq)]
#[non_exhaustive]
pub struct Field<'a> {
    /// Where it begins in the text.
    pub place: usize,
    /// Its bytes, with its quotes.
    pub bytes: &'a [u8],
    /// Whether it is quoted.
    pub quoted: bool,
}

impl<'a> Field<'a> {
    /// What it stands for: of a quoted field what is between its quotes, with each doubled quote as
    /// one; of any other its bytes.
    ///
    /// ```
    /// # use dwarnizza::Worklist;
    /// let row = Worklist::new(b"x,\"y\"\"z\"", b',')?.rows().next().expect("it has one");
    /// assert_eq!(*row.field(0).expect("it has two").content(), *b"x");
    /// assert_eq!(*row.field(1).expect("it has two").content(), *b"y\"z");
    /// # Ok::<(), dwarnizza::Refusal>(())
    /// ```
    pub fn content(self) -> Cow<'a, [u8]> {
        if !self.quoted {
            return Cow::Borrowed(self.bytes);
        }
        let mut content = vec![0; self.bytes.len()];
        let [length, ..] = unrefused(library::worklist_unquoted(self.bytes, &mut content));
        content.truncate(size(length));
        Cow::Owned(content)
    }
}
