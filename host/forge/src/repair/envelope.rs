//! Repair of envelopes, by what their table says now.

use super::digest;
use crate::build::{BEFORE_ROWS, ROW};
use crate::random::Random;

/// Repairs most of: the header size, the encoded size of the last chunk, and the chunk hashes.
pub fn envelope(file: &mut [u8], random: &mut Random) {
    if random.one_in(8) || file.len() < BEFORE_ROWS || file[4..8] == [0; 4] {
        return;
    }
    let rows = usize::from(file[10]) << 8 | usize::from(file[11]);
    let header = BEFORE_ROWS + ROW * rows;
    if header > file.len() {
        return;
    }
    if !random.one_in(3) {
        file[4..8].copy_from_slice(&(header as u32).to_be_bytes());
    }
    let last_size = !random.one_in(3);
    let (header, chunks) = file.split_at_mut(header);
    let mut rest = &*chunks;
    let (table, _) = header[BEFORE_ROWS..].as_chunks_mut::<ROW>();
    for (number, row) in table.iter_mut().enumerate() {
        if last_size && number + 1 == rows {
            row[..4].copy_from_slice(&(rest.len() as u32).to_be_bytes());
        }
        let [s0, s1, s2, s3, ..] = *row;
        let size = u32::from_be_bytes([s0, s1, s2, s3]) as usize;
        let Some((chunk, after)) = rest.split_at_checked(size) else {
            return;
        };
        if !random.one_in(10) {
            row[8..].copy_from_slice(&digest(chunk));
        }
        rest = after;
    }
}
