//! BLTE envelopes of plain chunks.

use crate::md5;
use crate::number::big_endian;
use crate::refusal::{self, Refusal};

/// What an envelope starts with.
pub const MAGIC: [u8; 4] = *b"BLTE";

/// The flags of a chunk table.
pub const FLAGS: u8 = 0x0f;

/// The mode of a chunk whose rest is its content.
pub const PLAIN: u8 = b'N';

/// How many bytes stand before the rows of a chunk table.
const BEFORE_ROWS: usize = 12;

/// How many bytes a row has: encoded size, decoded size, hash.
const ROW: usize = 24;

/// A row of a chunk table.
#[derive(Clone, Copy, Debug)]
struct Row {
    encoded_size: usize,
    decoded_size: usize,
    hash: [u8; 16],
}

/// A chunk as it stands in the file, with its row where there is a table.
#[derive(Clone, Copy, Debug)]
struct Chunk<'a> {
    row: Option<Row>,
    encoded: &'a [u8],
}

/// The parts of a file that passes 20 to 22.
#[derive(Clone, Debug)]
struct Envelope<'a> {
    /// The bytes that the key is the MD5 of.
    keyed: &'a [u8],
    chunks: Vec<Chunk<'a>>,
}

/// The content of an envelope; refuses with 20, 21, 22, 27, 50, then chunk by chunk 23, 24, 25.
pub fn open(file: &[u8], key: &[u8]) -> Result<Vec<u8>, Refusal> {
    let envelope = Envelope::read(file)?;
    let key: [u8; 16] = key.try_into().map_err(|_| refusal::ENVELOPE_KEY)?;
    if md5::digest(envelope.keyed)? != key {
        return Err(refusal::ENVELOPE_KEY);
    }
    let mut content = Vec::with_capacity(file.len());
    for (number, chunk) in envelope.chunks.iter().enumerate() {
        content.extend(chunk.content(number)?);
    }
    Ok(content)
}

/// Writes the content of an envelope into the output, and gives its length; refuses as `open` does,
/// then with 26.
pub fn open_into(file: &[u8], key: &[u8], output: &mut [u8]) -> Result<usize, Refusal> {
    let content = open(file, key)?;
    output
        .get_mut(..content.len())
        .ok_or(refusal::CONTENT_OUTPUT_TOO_SHORT)?
        .copy_from_slice(&content);
    Ok(content.len())
}

/// How many bytes the content has; refuses as `open` does.
pub fn content_length(file: &[u8], key: &[u8]) -> Result<usize, Refusal> {
    Ok(open(file, key)?.len())
}

/// The key of an envelope; refuses with 20, 21, 22, 50.
pub fn envelope_key(file: &[u8]) -> Result<[u8; 16], Refusal> {
    md5::digest(Envelope::read(file)?.keyed)
}

/// The envelope of these chunks, each given as it stands in the file, with a table; any mode, any
/// content. The table is right but for decoded sizes of empty chunks, which are 0.
pub fn with_table(chunks: &[Vec<u8>]) -> Vec<u8> {
    let header_size = BEFORE_ROWS + ROW * chunks.len();
    let mut file = MAGIC.to_vec();
    file.extend((header_size as u32).to_be_bytes());
    file.push(FLAGS);
    file.extend(&(chunks.len() as u32).to_be_bytes()[1..]);
    for chunk in chunks {
        let size = chunk.len() as u32;
        file.extend(size.to_be_bytes());
        file.extend(size.saturating_sub(1).to_be_bytes());
        file.extend(md5::digest(chunk).expect("a chunk is below the limit"));
    }
    file.extend(chunks.concat());
    file
}

/// The envelope of one chunk, given as it stands in the file, without a table.
pub fn without_table(chunk: &[u8]) -> Vec<u8> {
    [&MAGIC[..], &[0; 4], chunk].concat()
}

impl<'a> Envelope<'a> {
    /// Takes a file apart; refuses with 20, 21, 22.
    fn read(file: &'a [u8]) -> Result<Self, Refusal> {
        if file.len() < 8 || file[..4] != MAGIC {
            return Err(refusal::NOT_AN_ENVELOPE);
        }
        match big_endian(&file[4..8]) as usize {
            0 => Self::read_single(file),
            header_size => Self::read_table(file, header_size),
        }
    }

    fn read_single(file: &'a [u8]) -> Result<Self, Refusal> {
        let encoded = &file[8..];
        if encoded.is_empty() {
            return Err(refusal::CHUNK_SIZES);
        }
        Ok(Self {
            keyed: file,
            chunks: vec![Chunk { row: None, encoded }],
        })
    }

    fn read_table(file: &'a [u8], header_size: usize) -> Result<Self, Refusal> {
        let (header, mut rest) = file
            .split_at_checked(header_size)
            .filter(|(header, _)| header.len() >= BEFORE_ROWS)
            .ok_or(refusal::ENVELOPE_HEADER)?;
        let (rows, partial) = header[BEFORE_ROWS..].as_chunks::<ROW>();
        let count = big_endian(&header[9..12]) as usize;
        if header[8] != FLAGS || count == 0 || rows.len() != count || !partial.is_empty() {
            return Err(refusal::ENVELOPE_HEADER);
        }
        let mut chunks = Vec::with_capacity(count);
        for row in rows.iter().map(Row::read) {
            let (encoded, after) = rest
                .split_at_checked(row.encoded_size)
                .filter(|(encoded, _)| !encoded.is_empty())
                .ok_or(refusal::CHUNK_SIZES)?;
            let row = Some(row);
            chunks.push(Chunk { row, encoded });
            rest = after;
        }
        if !rest.is_empty() {
            return Err(refusal::CHUNK_SIZES);
        }
        Ok(Self {
            keyed: header,
            chunks,
        })
    }
}

impl Row {
    fn read(bytes: &[u8; ROW]) -> Self {
        let mut hash = [0; 16];
        hash.copy_from_slice(&bytes[8..]);
        Self {
            encoded_size: big_endian(&bytes[..4]) as usize,
            decoded_size: big_endian(&bytes[4..8]) as usize,
            hash,
        }
    }
}

impl<'a> Chunk<'a> {
    /// The content of the chunk of this number; refuses with 23, 24, 25.
    fn content(&self, chunk: usize) -> Result<&'a [u8], Refusal> {
        if let Some(row) = self.row
            && md5::digest(self.encoded)? != row.hash
        {
            return Err(refusal::chunk_hash(chunk));
        }
        let content = match self.encoded {
            [PLAIN, content @ ..] => content,
            _ => return Err(refusal::chunk_mode(chunk)),
        };
        if let Some(row) = self.row
            && row.decoded_size != content.len()
        {
            return Err(refusal::decoded_size(chunk));
        }
        Ok(content)
    }
}
