//! Numbers from their bytes.

/// The number that big-endian bytes are, eight of them at most.
pub fn big_endian(bytes: &[u8]) -> u64 {
    bytes
        .iter()
        .fold(0, |number, &byte| number << 8 | u64::from(byte))
}
