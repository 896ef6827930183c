//! Faults of encoding files.

use second::refusal::{self, Refusal};

use super::{BOTH, EncodingFile, Kind};
use crate::faults::flip;
use crate::random::Random;

/// A fault, in the order in which they are judged.
#[derive(Clone, Copy, Debug, PartialEq, Eq, PartialOrd, Ord)]
pub enum Fault {
    /// 30.
    Magic,
    /// 31.
    Field,
    /// 32.
    Cut,
    /// 33.
    OpenSpecs,
    /// That of a page.
    Page(Kind, usize, PageFault),
}

/// A fault of a page, in the order in which they are judged.
#[derive(Clone, Copy, Debug, PartialEq, Eq, PartialOrd, Ord)]
pub enum PageFault {
    /// 34.
    Hash,
    /// 35; the page is a content page.
    OverEnd,
    /// 37.
    FirstKey,
    /// 36; the page's last entry is not the first of its kind.
    Order,
    /// 38; the page is an encoding page.
    Spec,
}

impl Fault {
    /// What a file with this fault first is refused with.
    pub fn refusal(self) -> Refusal {
        match self {
            Fault::Magic => refusal::NOT_AN_ENCODING_FILE,
            Fault::Field => refusal::ENCODING_HEADER,
            Fault::Cut => refusal::PARTS_PAST_END,
            Fault::OpenSpecs => refusal::LAST_SPEC,
            Fault::Page(_, page, fault) => match fault {
                PageFault::Hash => refusal::encoding_page_hash(page),
                PageFault::OverEnd => refusal::entry_over_page_end(page),
                PageFault::FirstKey => refusal::first_key(page),
                PageFault::Order => refusal::encoding_order(page),
                PageFault::Spec => refusal::SPEC_NUMBER,
            },
        }
    }
}

impl EncodingFile {
    /// All faults that the file can have.
    pub fn faults(&self) -> Vec<Fault> {
        let mut faults = vec![Fault::Magic, Fault::Field, Fault::Cut, Fault::OpenSpecs];
        for (kind, page) in self.all_pages() {
            let of_page = self.page_faults(kind, page);
            faults.extend(of_page.map(|fault| Fault::Page(kind, page, fault)));
        }
        faults
    }

    fn page_faults(&self, kind: Kind, page: usize) -> impl Iterator<Item = PageFault> {
        let entries = self.entries_on(kind, page);
        let last = self.entry(kind, entries.end - 1);
        let full = last.end == self.page(kind, page).end;
        let all_counted = full && self.bytes[last.start] == u8::MAX;
        let order = entries.end > 1;
        [
            (PageFault::Hash, true),
            (PageFault::OverEnd, kind == Kind::Content && !all_counted),
            (PageFault::FirstKey, true),
            (PageFault::Order, order),
            (PageFault::Spec, kind == Kind::Encoding),
        ]
        .into_iter()
        .filter_map(|(fault, possible)| possible.then_some(fault))
    }

    /// Puts faults into a good file, each so that it is met where none of those before it is there.
    pub fn put_faults(&mut self, random: &mut Random, faults: &[Fault]) {
        let mut faults = faults.to_vec();
        faults.sort();
        self.put_entry_faults(random, &faults);
        self.fix_hashes();
        // From the back, since the file may be cut.
        for &fault in faults.iter().rev() {
            self.put_outside_entries(random, fault);
        }
    }

    /// Puts the faults of entries, from the front, since each key goes by the one before.
    fn put_entry_faults(&mut self, random: &mut Random, faults: &[Fault]) {
        for &fault in faults {
            if let Fault::Page(kind, page, fault) = fault {
                self.put_entry_fault(random, kind, page, fault);
            }
        }
    }

    /// Puts a fault of what is not an entry.
    fn put_outside_entries(&mut self, random: &mut Random, fault: Fault) {
        match fault {
            Fault::Magic => flip(random, &mut self.bytes[..2]),
            Fault::Field => self.put_field(random),
            Fault::Cut => self.cut(random),
            Fault::OpenSpecs => {
                let last = self.spec_table().end - 1;
                self.bytes[last] = 1 + random.up_to(254) as u8;
            }
            Fault::Page(kind, page, PageFault::Hash) => {
                let hash = self.hash(kind, page);
                flip(random, &mut self.bytes[hash]);
            }
            Fault::Page(kind, page, PageFault::FirstKey) => {
                let first_key = self.first_key(kind, page);
                flip(random, &mut self.bytes[first_key]);
            }
            Fault::Page(..) => (),
        }
    }

    /// Puts a fault into the entries of a page; its hash is then wrong.
    fn put_entry_fault(&mut self, random: &mut Random, kind: Kind, page: usize, fault: PageFault) {
        let entries = self.entries_on(kind, page);
        match fault {
            PageFault::OverEnd => {
                let last = self.entry(kind, entries.end - 1);
                let end = self.page(kind, page).end;
                match last.end == end {
                    true => self.bytes[last.start] += 1,
                    false => self.put_over_end(last.end, end),
                }
            }
            PageFault::Order => {
                let first = entries.start.max(1);
                let number = first + random.up_to(entries.end - 1 - first);
                self.repeat_key(kind, number);
                self.fix_first_key(kind, page);
            }
            PageFault::Spec => {
                let number = entries.start + random.up_to(entries.len() - 1);
                let least = self.specs;
                let highest = u32::MAX - 1;
                let past = [
                    least,
                    highest,
                    least + random.word() as u32 % (highest - least),
                ];
                let field = self.spec_number(number);
                self.bytes[field].copy_from_slice(&past[random.up_to(2)].to_be_bytes());
            }
            PageFault::Hash | PageFault::FirstKey => (),
        }
    }

    /// Fills a content page from here to its end with entries, of which the last is cut.
    fn put_over_end(&mut self, start: usize, end: usize) {
        let length = |count: u8| {
            let [key, encoding_key] = BOTH.map(|kind| self.sizes(kind).key_len());
            super::BEFORE_KEY + key + usize::from(count) * encoding_key
        };
        let count = match (end - start).is_multiple_of(length(255)) {
            true => 254,
            false => 255,
        };
        self.bytes[start..end].fill(count);
    }

    /// Gives an entry the key of the one before, and its spec number, so that it does not become
    /// padding.
    fn repeat_key(&mut self, kind: Kind, number: usize) {
        let [before, key] = [number - 1, number].map(|number| self.key(kind, number));
        self.bytes.copy_within(before, key.start);
        if kind == Kind::Encoding {
            let [before, field] = [number - 1, number].map(|number| self.spec_number(number));
            self.bytes.copy_within(before, field.start);
        }
    }

    /// Makes one field of the header wrong.
    fn put_field(&mut self, random: &mut Random) {
        let another = 1 + random.up_to(254) as u8;
        let key_size = 3 + random.up_to(1);
        let (at, value): (usize, &[u8]) = match random.up_to(8) {
            0 => (2, &[1 ^ another]),
            1 => (key_size, &[0]),
            2 => (key_size, &[17 + random.up_to(238) as u8]),
            3 => (5, &[0, 0]),
            4 => (7, &[0, 0]),
            5 => (9, &[0; 4]),
            6 => (13, &[0; 4]),
            7 => (17, &[another]),
            _ => (18, &[0; 4]),
        };
        self.bytes[at..][..value.len()].copy_from_slice(value);
    }

    /// Cuts the file before the end of its parts, behind its header.
    fn cut(&mut self, random: &mut Random) {
        let least = super::HEADER;
        let most = self.parts_end() - 1;
        let length = match random.up_to(2) {
            0 => most,
            1 => least,
            _ => least + random.up_to(most - least),
        };
        self.bytes.truncate(length);
    }
}
