//! Many ids at once.

use std::collections::HashMap;

use super::{KEY, blocks, check};
use crate::refusal::{self, Refusal};

/// How many bytes an id has.
const ID: usize = 4;

/// For each id of the list 20 bytes: 1 where it is found, else 0; three zeros; its content key,
/// zeros where it is absent. The ids are big-endian and rise. Refuses as the full check does, then
/// with 12, 161.
pub fn find_many(file: &[u8], ids: &[u8], locale: u32, unwanted: u64) -> Result<Vec<u8>, Refusal> {
    check(file)?;
    let (ids, []) = ids.as_chunks::<ID>() else {
        return Err(refusal::LIST_NOT_WHOLE);
    };
    if let Some(place) = ids.windows(2).position(|pair| pair[1] < pair[0]) {
        return Err(refusal::list_falls(place + 1));
    }
    let keys = keys(file, locale, unwanted)?;
    let mut answers = Vec::with_capacity(ids.len() * (4 + KEY));
    for &id in ids {
        let key = keys.get(&u32::from_be_bytes(id));
        answers.extend([key.is_some().into(), 0, 0, 0]);
        answers.extend(key.unwrap_or(&[0; KEY]));
    }
    Ok(answers)
}

/// Writes the same into the output, and gives its length; refuses as `find_many` does, then with 13.
pub fn find_many_into(
    file: &[u8],
    ids: &[u8],
    (locale, unwanted): (u32, u64),
    output: &mut [u8],
) -> Result<usize, Refusal> {
    let answers = find_many(file, ids, locale, unwanted)?;
    output
        .get_mut(..answers.len())
        .ok_or(refusal::OUTPUT_TOO_SHORT)?
        .copy_from_slice(&answers);
    Ok(answers.len())
}

/// The content key of every id, by its first record in the blocks that count.
fn keys(file: &[u8], locale: u32, unwanted: u64) -> Result<HashMap<u32, [u8; KEY]>, Refusal> {
    let mut keys = HashMap::new();
    for block in blocks(file)? {
        let block = block?;
        if block.counts(locale, unwanted) {
            for (record, id) in block.ids().enumerate() {
                keys.entry(id?).or_insert_with(|| block.found(record).key);
            }
        }
    }
    Ok(keys)
}
