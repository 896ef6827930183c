//! The chain from a file number to a size and a location.

use crate::index::{Found, Index};
use crate::refusal::Refusal;
use crate::{encoding, index, root};

/// The files that the chain goes through, root and encoding file taken out of their envelopes.
#[derive(Clone, Copy, Debug)]
pub struct Build<'a> {
    /// File number to content key.
    pub root: &'a [u8],
    /// Content key to encoding key.
    pub encoding: &'a [u8],
    /// Encoding key to size and location.
    pub index: &'a [u8],
}

/// A link of the chain.
#[derive(Clone, Copy, Debug, PartialEq, Eq)]
pub enum Link {
    /// Link 1.
    Root,
    /// Link 2.
    Encoding,
    /// Link 3.
    Index,
}

/// The answer of the chain.
#[derive(Clone, Copy, Debug, PartialEq, Eq)]
pub enum Resolved {
    /// What the index says.
    Found {
        /// The entry.
        found: Found,
        /// How many comparisons of stored keys the index took.
        compared: u32,
    },
    /// A link has no entry.
    Absent {
        /// Which.
        link: Link,
        /// How many comparisons of stored keys the index took; 0 before the index.
        compared: u32,
    },
}

/// A refusal, and the link that refused.
#[derive(Clone, Copy, Debug, PartialEq, Eq)]
pub struct Refused {
    /// The refusal.
    pub refusal: Refusal,
    /// The link.
    pub link: Link,
}

impl Link {
    fn refused(self) -> impl Fn(Refusal) -> Refused {
        move |refusal| Refused {
            refusal,
            link: self,
        }
    }

    /// The answer where a link before the index has no entry.
    fn absent(self) -> Resolved {
        Resolved::Absent {
            link: self,
            compared: 0,
        }
    }
}

/// Follows a file number by the root file to its content key, by the encoding file to the first
/// encoding key of that, and by the index to size and location. Each link refuses as its lookup
/// does, and the first that does not find ends the chain.
pub fn resolve(build: Build<'_>, id: u32, locale: u32, unwanted: u64) -> Result<Resolved, Refused> {
    let record = root::find(build.root, id, locale, unwanted).map_err(Link::Root.refused())?;
    let Some(record) = record else {
        return Ok(Link::Root.absent());
    };
    let entry =
        encoding::find_content(build.encoding, &record.key).map_err(Link::Encoding.refused())?;
    let Some(entry) = entry else {
        return Ok(Link::Encoding.absent());
    };
    let index::Lookup { found, compared } =
        index::lookup(build.index, entry.first_encoding_key()).map_err(Link::Index.refused())?;
    Ok(match found {
        Some(found) => Resolved::Found { found, compared },
        None => Resolved::Absent {
            link: Link::Index,
            compared,
        },
    })
}

/// The plain reading of files that pass their full checks: each is read from its first entry to the
/// one that is sought. Tells the link that has none.
pub fn plain_reading(build: Build<'_>, id: u32, locale: u32, unwanted: u64) -> Result<Found, Link> {
    let checked = "the files pass their full checks";
    let record = root::find(build.root, id, locale, unwanted).expect(checked);
    let record = record.ok_or(Link::Root)?;
    let entry = encoding::plain_reading(build.encoding, &record.key).expect(checked);
    let entry = entry.ok_or(Link::Encoding)?;
    let index = Index::open(build.index).expect(checked);
    index
        .plain_reading(entry.first_encoding_key())
        .ok_or(Link::Index)
}
