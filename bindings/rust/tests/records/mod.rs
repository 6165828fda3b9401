//! Note records by their layout.

/// A record with this row, tail, column and kind.
pub fn record(row: u32, tail: u32, column: u8, kind: u8) -> [u8; 10] {
    let mut record = [0; 10];
    record[..4].copy_from_slice(&row.to_le_bytes());
    record[4..8].copy_from_slice(&tail.to_le_bytes());
    record[8..].copy_from_slice(&[column, kind]);
    record
}

/// The record of a tap.
pub fn tap(row: u32, column: u8) -> [u8; 10] {
    record(row, u32::MAX, column, 0)
}
