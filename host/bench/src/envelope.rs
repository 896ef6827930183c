//! BLTE envelopes.

use fuzz::export::{ANSWERED, ENVELOPE_KEY, ENVELOPE_LENGTH, ENVELOPE_OPEN, Given};
use second::envelope::{PLAIN, envelope_key, with_table, without_table};

use crate::measure::mixed;
use crate::table::{Call, Table};

/// How many chunks the envelopes have, and how many bytes of content each chunk.
const CHUNKS: [(usize, usize); 3] = [(4, 16 << 10), (16, 256 << 10), (256, 256 << 10)];

/// An envelope, and the parts that are hashed to open it: what its key is of, and the chunks.
struct File {
    bytes: Vec<u8>,
    key: [u8; 16],
    content: usize,
    chunks: usize,
    header: usize,
    chunk: usize,
}

impl File {
    /// `chunks` chunks of `length` bytes, with a table.
    fn new((chunks, length): (usize, usize)) -> Self {
        let parts: Vec<_> = (0..chunks).map(|number| chunk(number, length)).collect();
        let bytes = with_table(&parts);
        let header = bytes.len() - chunks * (length + 1);
        Self::of(bytes, chunks, header, length)
    }

    /// As much content in one chunk without a table. The key is of the whole file.
    fn without_table((chunks, length): (usize, usize)) -> Self {
        let bytes = without_table(&chunk(0, chunks * length));
        let whole = bytes.len();
        Self::of(bytes, 1, whole, chunks * length)
    }

    fn of(bytes: Vec<u8>, chunks: usize, header: usize, content: usize) -> Self {
        Self {
            key: envelope_key(&bytes).expect("the envelope is good"),
            bytes,
            content: chunks * content,
            chunks,
            header,
            chunk: content + 1,
        }
    }

    fn hashed(&self) -> Vec<&[u8]> {
        let (keyed, chunks) = self.bytes.split_at(self.header);
        let mut hashed = vec![keyed];
        hashed.extend(chunks.chunks(self.chunk));
        hashed
    }

    /// Opening it.
    fn call(&self, kind: &'static str) -> Call<'_> {
        Call {
            export: &ENVELOPE_OPEN,
            kind,
            size: self.content,
            unit: "B",
            given: Box::new(|_| Given::new([&self.bytes, &self.key], [])),
            result: ANSWERED,
            output: self.content,
            hashed: self.hashed(),
        }
    }
}

/// A plain chunk of content spread by a fixed rule.
fn chunk(number: usize, length: usize) -> Vec<u8> {
    let words = (0..length / 8).map(|word| mixed((number << 32 | word) as u64));
    let content = words.flat_map(u64::to_be_bytes);
    [PLAIN].into_iter().chain(content).collect()
}

/// Prints the lines.
pub fn measure(table: &mut Table) {
    let files = CHUNKS.map(File::new);
    table.calls(files.iter().map(|file| file.call(", with a table")));
    let single = CHUNKS.map(File::without_table);
    table.calls(single.iter().map(|file| file.call(", one chunk")));
    table.calls(files.iter().map(|file| Call {
        export: &ENVELOPE_LENGTH,
        output: 0,
        ..file.call("")
    }));
    table.calls(files.iter().map(|file| Call {
        export: &ENVELOPE_KEY,
        size: file.chunks,
        unit: "chunks",
        output: 16,
        hashed: vec![&file.bytes[..file.header]],
        ..file.call("")
    }));
}
