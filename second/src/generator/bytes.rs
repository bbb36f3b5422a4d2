//! Numbers of four bytes inside a record, high byte first.

/// Writes a number at an offset.
pub fn put(record: &mut [u8], offset: usize, number: u32) {
    record[offset..offset + 4].copy_from_slice(&number.to_be_bytes());
}

/// The number at an offset.
pub fn get(record: &[u8], offset: usize) -> u32 {
    record[offset..offset + 4].iter().fold(0, |sum, &byte| sum * 256 + u32::from(byte))
}
