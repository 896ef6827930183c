//! Envelopes.

use second::envelope::{PLAIN, with_table, without_table};

use crate::damage::Place;
use crate::random::Random;

/// Where the fields before the rows stand, and how many bytes they have.
const FRONT: [(usize, usize); 4] = [(0, 4), (4, 4), (8, 1), (9, 3)];

/// How many bytes stand before the rows.
pub const BEFORE_ROWS: usize = 12;

/// How many bytes a row has.
pub const ROW: usize = 24;

/// Where the fields of a row stand in it, and how many bytes they have.
const ROW_FIELDS: [(usize, usize); 3] = [(0, 4), (4, 4), (8, 16)];

/// An envelope.
#[derive(Clone, Debug)]
pub struct Envelope {
    /// The file.
    pub file: Vec<u8>,
    /// How many rows its table has; 0 without a table.
    rows: usize,
    /// Where each chunk stands.
    chunks: Vec<usize>,
}

impl Envelope {
    /// An envelope of one to six chunks, often all of one length.
    pub fn new(random: &mut Random) -> Self {
        let same_length = random.one_in(2).then(|| content_length(random));
        let count = random.pick(&[1, 1, 2, 2, 3, 4, 5, 6]);
        let chunks = (0..count).map(|_| {
            let length = same_length.unwrap_or_else(|| content_length(random));
            [&[PLAIN], &random.bytes(length)[..]].concat()
        });
        let chunks: Vec<_> = chunks.collect();
        if count == 1 && random.one_in(2) {
            return Self {
                file: without_table(&chunks[0]),
                rows: 0,
                chunks: vec![8],
            };
        }
        let mut at = BEFORE_ROWS + ROW * count;
        let mut places = Vec::with_capacity(count);
        for chunk in &chunks {
            places.push(at);
            at += chunk.len();
        }
        Self {
            file: with_table(&chunks),
            rows: count,
            chunks: places,
        }
    }

    /// A field of the header, of a row, or the mode of a chunk.
    pub fn place(&self, random: &mut Random) -> Place {
        match random.within(0..=6) {
            0 | 1 => {
                let (at, length) = random.pick(&FRONT);
                Place::alone(at, length)
            }
            2 | 3 => Place::alone(random.pick(&self.chunks), 1),
            _ => {
                let (at, length) = random.pick(&ROW_FIELDS);
                let row = random.within(0..=self.rows.max(1) - 1);
                Place {
                    at: BEFORE_ROWS + row * ROW + at,
                    length,
                    step: ROW,
                }
            }
        }
    }
}

/// The length of a chunk's content: few bytes, or about a block of MD5.
fn content_length(random: &mut Random) -> usize {
    match random.within(0..=9) {
        0 => 0,
        1..=4 => random.within(1..=20),
        5..=8 => random.within(50..=140),
        _ => random.within(200..=1500),
    }
}
