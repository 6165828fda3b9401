//! The heads that come to nothing: a plain reference, which the Rust does not have. It goes over the minimised text row by row and keeps in
//! each column the row of the head that is open there.

/// The number that stands for no row in a record.
pub const NO_ROW: u32 = u32::MAX;

/// Bytes of a record.
pub const DROPPED_BYTES: usize = 10;

/// Why a head is dropped: by another head of its column, by another cell there, by the end of the chart.
pub const OTHER_HEAD: u8 = 0;
pub const OTHER_CELL: u8 = 1;
pub const CHART_END: u8 = 2;

/// A head without a tail. Rows are numbered through the whole chart.
#[derive(Clone, Copy, Debug, PartialEq, Eq, PartialOrd, Ord)]
pub struct DroppedHead {
    pub row: u32,
    pub column: u8,
    /// The row that dropped it; none at the end of the chart.
    pub by: Option<u32>,
    pub reason: u8,
}

impl DroppedHead {
    /// Its row and the row that dropped it, four bytes each and low byte first, its column and the reason.
    #[must_use]
    pub fn record(&self) -> [u8; DROPPED_BYTES] {
        let [r0, r1, r2, r3] = self.row.to_le_bytes();
        let [b0, b1, b2, b3] = self.by.unwrap_or(NO_ROW).to_le_bytes();
        [r0, r1, r2, r3, b0, b1, b2, b3, self.column, self.reason]
    }

    /// The head that a record stands for.
    #[must_use]
    pub fn read(record: &[u8; DROPPED_BYTES]) -> Self {
        let [r0, r1, r2, r3, b0, b1, b2, b3, column, reason] = *record;
        let by = u32::from_le_bytes([b0, b1, b2, b3]);
        Self {
            row: u32::from_le_bytes([r0, r1, r2, r3]),
            column,
            by: (by != NO_ROW).then_some(by),
            reason,
        }
    }
}

/// The heads that records stand for, which stand back to back.
#[must_use]
pub fn heads_in(records: &[u8]) -> Vec<DroppedHead> {
    let (records, rest) = records.as_chunks();
    assert!(rest.is_empty(), "records have ten bytes each");
    records.iter().map(DroppedHead::read).collect()
}

/// The rows of a minimised text, of which each line is a row or begins with `,`, as no row does.
pub fn text_rows(text: &[u8], lanes: usize) -> impl Iterator<Item = &[u8]> {
    let mut rest = text;
    std::iter::from_fn(move || {
        while let Some(after) = rest.strip_prefix(b",\n") {
            rest = after;
        }
        let row = rest.get(..lanes)?;
        rest = rest.get(lanes + 1..).unwrap_or_default();
        Some(row)
    })
}

/// The dropped heads of a minimised text with L lanes, in rising row, then column.
#[must_use]
pub fn dropped_heads(text: &[u8], lanes: usize) -> Vec<DroppedHead> {
    dropped_of(text_rows(text, lanes), lanes)
}

/// The dropped heads of these rows.
#[must_use]
pub fn dropped_of<'a>(rows: impl Iterator<Item = &'a [u8]>, lanes: usize) -> Vec<DroppedHead> {
    let mut open: Vec<Option<u32>> = vec![None; lanes];
    let mut dropped = Vec::new();
    for (number, row) in (0..).zip(rows) {
        for (column, (&cell, open)) in (0..).zip(row.iter().zip(&mut open)) {
            let reason = match cell {
                b'3' => {
                    *open = None;
                    continue;
                }
                b'2' | b'4' => OTHER_HEAD,
                b'1' | b'M' | b'L' | b'F' | b'm' | b'l' | b'f' => OTHER_CELL,
                _ => continue,
            };
            if let Some(row) = open.take() {
                let by = Some(number);
                dropped.push(DroppedHead {
                    row,
                    column,
                    by,
                    reason,
                });
            }
            if reason == OTHER_HEAD {
                *open = Some(number);
            }
        }
    }
    for (column, row) in (0..).zip(open) {
        dropped.extend(row.map(|row| DroppedHead {
            row,
            column,
            by: None,
            reason: CHART_END,
        }));
    }
    dropped.sort_unstable();
    dropped
}
