//! Records by path.

use super::{Found, blocks, check};
use crate::name_hash::name_hash;
use crate::refusal::Refusal;

/// The id and the content key of the first record with the path's name hash, in a block that shares
/// a locale bit and no unwanted bit and has name hashes; refuses with 110, then as the full check
/// does.
pub fn find_path(
    file: &[u8],
    path: &[u8],
    locale: u32,
    unwanted: u64,
) -> Result<Option<(u32, Found)>, Refusal> {
    let sought = name_hash(path)?.to_le_bytes();
    check(file)?;
    for block in blocks(file)? {
        let block = block?;
        let ids = block.ids().enumerate();
        let mut named = ids.zip(block.name_hashes());
        if block.counts(locale, unwanted)
            && let Some(((record, id), _)) = named.find(|&(_, name_hash)| name_hash == sought)
        {
            return Ok(Some((id?, block.found(record))));
        }
    }
    Ok(None)
}
