//! One call by both programs, and what differs.

use std::fmt;
use std::ptr;

use crate::counts::Counts;
use crate::export::{Export, Given, REFUSED, Said};
use crate::lent::{ALIGNMENT, Lent, Memory};
use forge::random::Random;

/// The output that a call is lent.
#[derive(Clone, Copy, Debug)]
pub enum Output<'a> {
    /// None.
    None,
    /// This number of bytes, which hold the pattern, anywhere.
    Bytes(usize),
    /// This number of bytes, which hold the pattern, at a multiple of eight.
    Aligned(usize),
    /// These bytes, at a multiple of eight.
    Holding(&'a [u8]),
}

impl Output<'_> {
    /// Lends it from this memory, moved by `moved` bytes where it may stand anywhere.
    fn lend(self, memory: &mut Memory, moved: usize) -> Lent {
        match self {
            Self::None => memory.lend(0, moved, None),
            Self::Bytes(length) => memory.lend(length, moved, None),
            Self::Aligned(length) => memory.lend(length, 0, None),
            Self::Holding(bytes) => memory.lend(bytes.len(), 0, Some(bytes)),
        }
    }
}

/// Makes calls by both programs and counts what they say.
#[derive(Debug, Default)]
pub struct Comparison {
    by_library: Memory,
    by_second: Memory,
    /// How many bytes after a multiple of eight inputs and outputs start.
    moved: usize,
    /// Whether the pointers of empty inputs and outputs are NULL.
    empty_is_null: bool,
    /// What was said so far.
    pub counts: Counts,
}

/// A byte input, with nothing behind it, so that valgrind sees a read past its end.
struct Input {
    bytes: Box<[u8]>,
    moved: usize,
}

impl Input {
    fn new(bytes: &[u8], moved: usize) -> Self {
        Self {
            bytes: [&[0; ALIGNMENT][..moved], bytes].concat().into(),
            moved,
        }
    }

    fn bytes(&self) -> &[u8] {
        &self.bytes[self.moved..]
    }
}

impl Comparison {
    /// Begins a case: chooses where its inputs and outputs start.
    pub fn begin(&mut self, random: &mut Random) {
        self.moved = random.within(0..=ALIGNMENT - 1);
        self.empty_is_null = random.one_in(2);
    }

    /// Makes a call by both programs. Gives what they say.
    pub fn call(
        &mut self,
        export: &'static Export,
        given: &Given,
        output: Output,
    ) -> Result<Said, Box<Difference>> {
        // SAFETY: the memory is lent for this call alone, and the given is that of the export.
        let library = |given: &Given, lent| unsafe { export.library.call(given, lent) };
        self.call_as(export, library, given, output)
    }

    /// The same with a function in place of the library's.
    pub fn call_as(
        &mut self,
        export: &'static Export,
        library: impl FnOnce(&Given, Lent) -> u32,
        given: &Given,
        output: Output,
    ) -> Result<Said, Box<Difference>> {
        let inputs = given.bytes.map(|bytes| Input::new(bytes, self.moved));
        let given = &Given {
            bytes: [&inputs[0], &inputs[1], &inputs[2]].map(Input::bytes),
            numbers: given.numbers,
            empty_is_null: self.empty_is_null,
        };
        let mut lent = output.lend(&mut self.by_library, self.moved);
        if lent.length == 0 && self.empty_is_null {
            lent.output = ptr::null_mut();
        }
        let result = library(given, lent);
        let by_library = Said {
            result,
            words: self.by_library.answer(),
        };
        output.lend(&mut self.by_second, self.moved);
        let by_second = (export.second)(given, self.by_second.output_mut());
        match self.different(export, by_library, by_second) {
            None => {
                self.counts.add(export, by_second);
                Ok(by_second)
            }
            Some(what) => Err(Box::new(Difference {
                export,
                what,
                inputs: given.bytes.map(<[u8]>::to_vec),
                numbers: given.numbers,
                output_length: lent.length,
                by_library,
                by_second,
            })),
        }
    }

    /// What the output of the last call holds.
    pub fn output(&self) -> &[u8] {
        self.by_library.output()
    }

    fn different(&self, export: &Export, by_library: Said, by_second: Said) -> Option<What> {
        let (library, second) = (self.by_library.output(), self.by_second.output());
        if !self.by_library.guards_kept() {
            return Some(What::Guard);
        }
        if by_library != by_second {
            return Some(What::Said);
        }
        if by_library.result != 0 && !self.by_library.output_kept() {
            return Some(What::NotKept);
        }
        if library != second {
            let place = library
                .iter()
                .zip(second)
                .position(|(one, other)| one != other);
            return Some(What::Output(place.expect("both are as long")));
        }
        let unlisted = by_library.result == REFUSED && !export.gives(by_library.words[0] as u32);
        unlisted.then_some(What::Unlisted)
    }
}

/// What differs.
#[derive(Clone, Copy, Debug, PartialEq, Eq)]
pub enum What {
    /// The library wrote outside of what it was lent.
    Guard,
    /// The result or a word of the answer.
    Said,
    /// The library wrote to the output, and was refused or absent.
    NotKept,
    /// The output, first at this place.
    Output(usize),
    /// Both gave a refusal that the export does not have.
    Unlisted,
}

/// A call on which the programs differ.
#[derive(Debug)]
pub struct Difference {
    /// The export.
    pub export: &'static Export,
    /// What differs.
    pub what: What,
    /// The byte inputs.
    pub inputs: [Vec<u8>; 3],
    /// The numbers.
    pub numbers: [u64; 6],
    /// How many bytes the output has.
    pub output_length: usize,
    /// What the library says.
    pub by_library: Said,
    /// What the second program says.
    pub by_second: Said,
}

impl Difference {
    /// The byte inputs by their names.
    pub fn named_inputs(&self) -> impl Iterator<Item = (&'static str, &[u8])> {
        let names = self.export.inputs.iter().copied();
        names.zip(self.inputs.iter().map(Vec::as_slice))
    }
}

impl fmt::Display for What {
    fn fmt(&self, f: &mut fmt::Formatter<'_>) -> fmt::Result {
        match self {
            Self::Guard => f.write_str("the library wrote outside of what it was lent"),
            Self::Said => f.write_str("the answers differ"),
            Self::NotKept => f.write_str("the library wrote to the output without an answer"),
            Self::Output(place) => write!(f, "the outputs differ from byte {place} on"),
            Self::Unlisted => f.write_str("a refusal that this export does not have"),
        }
    }
}

impl fmt::Display for Difference {
    fn fmt(&self, f: &mut fmt::Formatter<'_>) -> fmt::Result {
        writeln!(f, "{}: {}", self.export.name, self.what)?;
        let inputs = self.named_inputs();
        let inputs = inputs.map(|(name, bytes)| format!("  {name}: {} bytes\n", bytes.len()));
        let numbers = self.export.numbers.iter().zip(self.numbers);
        let numbers = numbers.map(|(name, number)| format!("  {name}: {number}\n"));
        f.write_str(&inputs.chain(numbers).collect::<String>())?;
        writeln!(f, "  output: {} bytes", self.output_length)?;
        writeln!(f, "  library: {}", self.by_library)?;
        write!(f, "  second:  {}", self.by_second)
    }
}
