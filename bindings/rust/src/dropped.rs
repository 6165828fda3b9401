//! Heads that come to nothing, and the records they are listed in.

use crate::DROPPED_BYTES;
use std::fmt;
use std::slice;

/// Why a head has no note.
#[derive(Debug, Clone, Copy, PartialEq, Eq, Hash)]
pub enum DropCause {
    /// Another 2 or 4 stands in its column at this row, before its tail.
    OtherHead(usize),
    /// A 1, M, L, F, m, l or f stands in its column at this row, before its tail.
    OtherCell(usize),
    /// The chart ends before its tail.
    ChartEnd,
}

impl DropCause {
    /// The row of what dropped it; the chart's end has none.
    #[must_use]
    pub const fn row(self) -> Option<usize> {
        match self {
            Self::OtherHead(row) | Self::OtherCell(row) => Some(row),
            Self::ChartEnd => None,
        }
    }
}

impl fmt::Display for DropCause {
    fn fmt(&self, f: &mut fmt::Formatter<'_>) -> fmt::Result {
        match self {
            Self::OtherHead(row) => write!(f, "another head at row {row}"),
            Self::OtherCell(row) => write!(f, "another cell at row {row}"),
            Self::ChartEnd => f.write_str("the end of the chart"),
        }
    }
}

/// A 2 or 4 that has no note, since no 3 closes it. Rows are numbered through all minimised rows, columns from 0.
#[derive(Debug, Clone, Copy, PartialEq, Eq, Hash)]
pub struct DroppedHead {
    /// Its row.
    pub row: usize,
    /// Its column.
    pub column: usize,
    /// What dropped it.
    pub cause: DropCause,
}

/// The head in a record that the library wrote: its row and the row that dropped it of four bytes each, low byte first, column,
/// reason.
#[inline]
fn decoded(record: &[u8; DROPPED_BYTES]) -> DroppedHead {
    let [r0, r1, r2, r3, b0, b1, b2, b3, column, reason] = *record;
    let row = u32::from_le_bytes([r0, r1, r2, r3]) as usize;
    let by = u32::from_le_bytes([b0, b1, b2, b3]) as usize;
    let cause = match reason {
        0 => DropCause::OtherHead(by),
        1 => DropCause::OtherCell(by),
        _ => DropCause::ChartEnd,
    };
    let column = column.into();
    DroppedHead { row, column, cause }
}

/// The dropped heads of a chart, read from the records that the library wrote.
#[derive(Clone, Debug)]
pub struct DroppedHeads<'a> {
    records: &'a [u8],
    left: slice::Iter<'a, [u8; DROPPED_BYTES]>,
}

impl<'a> DroppedHeads<'a> {
    /// The heads in records that [`lent::dropped_holds`](crate::lent::dropped_holds) wrote, which stand back to back. Bytes past the
    /// last whole record are left out.
    ///
    /// ```
    /// use padcheck::{DropCause, DroppedHeads};
    ///
    /// // row 3, dropped by row 260, column 1, another cell
    /// let mut heads = DroppedHeads::new(&[3, 0, 0, 0, 4, 1, 0, 0, 1, 1]);
    /// let head = heads.next().unwrap();
    /// assert_eq!((head.row, head.column, head.cause), (3, 1, DropCause::OtherCell(260)));
    /// assert_eq!(heads.len(), 0);
    /// ```
    #[must_use]
    pub fn new(records: &'a [u8]) -> Self {
        let left = records.as_chunks().0.iter();
        Self { records, left }
    }

    /// All records, ten bytes each and back to back, for storing.
    #[must_use]
    pub fn records(&self) -> &'a [u8] {
        self.records
    }
}

impl Iterator for DroppedHeads<'_> {
    type Item = DroppedHead;

    #[inline]
    fn next(&mut self) -> Option<DroppedHead> {
        self.left.next().map(decoded)
    }

    #[inline]
    fn size_hint(&self) -> (usize, Option<usize>) {
        self.left.size_hint()
    }
}

impl ExactSizeIterator for DroppedHeads<'_> {}

#[cfg(test)]
mod tests {
    use super::*;

    #[test]
    fn each_byte_of_a_record_is_read() {
        let records = [
            [1, 2, 3, 4, 5, 6, 7, 8, 9, 0],
            [255, 0, 0, 0, 0, 1, 0, 0, 3, 1],
            [0, 1, 0, 0, 255, 255, 255, 255, 0, 2],
        ];
        let heads = DroppedHeads::new(records.as_flattened());
        assert_eq!(heads.len(), 3);
        assert_eq!(heads.records(), records.as_flattened());
        let want = [
            (0x0403_0201, 9, DropCause::OtherHead(0x0807_0605)),
            (255, 3, DropCause::OtherCell(256)),
            (256, 0, DropCause::ChartEnd),
        ];
        assert!(
            heads
                .map(|head| (head.row, head.column, head.cause))
                .eq(want)
        );
    }

    #[test]
    fn a_cause_is_said() {
        let said = [
            DropCause::OtherHead(7),
            DropCause::OtherCell(8),
            DropCause::ChartEnd,
        ];
        let words = [
            "another head at row 7",
            "another cell at row 8",
            "the end of the chart",
        ];
        assert_eq!(said.map(|cause| cause.to_string()), words);
        assert_eq!(said.map(DropCause::row), [Some(7), Some(8), None]);
    }
}
