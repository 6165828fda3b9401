//! Notes, and the records they are stored in.

use crate::{NOTE_BYTES, Refusal, lent};
use std::slice;

/// Kind of a note.
#[repr(u8)]
#[derive(Debug, Clone, Copy, PartialEq, Eq, Hash)]
#[expect(missing_docs, reason = "the kinds are rssp's")]
pub enum ChartNoteType {
    Tap,
    Hold,
    Roll,
    Mine,
    Lift,
    Fake,
}

/// A note of a minimised chart. Rows are numbered through all minimised rows, columns from 0.
#[derive(Debug, Clone, Copy, PartialEq, Eq, Hash)]
pub struct ParsedChartNote {
    /// Row of the note, or of its head.
    pub row_index: usize,
    /// Column of the note.
    pub column: usize,
    /// Kind of the note.
    pub note_type: ChartNoteType,
    /// Row of its tail; holds and rolls have one, the others none.
    pub tail_row_index: Option<usize>,
}

impl ParsedChartNote {
    /// The note's record: row and tail of four bytes each, low byte first, column, kind. A row, tail or column that is too large for it becomes
    /// one that breaks the limit of a record, as it does itself.
    ///
    /// ```
    /// use padcheck::{ChartNoteType, ParsedChartNote, read_note};
    ///
    /// let (row_index, tail_row_index) = (3, Some(260));
    /// let note = ParsedChartNote { row_index, column: 1, note_type: ChartNoteType::Roll, tail_row_index };
    /// assert_eq!(note.record(), [3, 0, 0, 0, 4, 1, 0, 0, 1, 2]);
    /// assert_eq!(read_note(&note.record(), 0), Ok(note));
    /// ```
    #[must_use]
    pub fn record(&self) -> [u8; NOTE_BYTES] {
        // No tail is that which stands for none.
        let row_bytes = |row: usize| row.min(NO_TAIL as usize - 1) as u32;
        let tail = self.tail_row_index.map_or(NO_TAIL as u32, row_bytes);
        let [r0, r1, r2, r3] = row_bytes(self.row_index).to_le_bytes();
        let [t0, t1, t2, t3] = tail.to_le_bytes();
        let column = self.column.min(u8::MAX.into()) as u8;
        [r0, r1, r2, r3, t0, t1, t2, t3, column, self.note_type as u8]
    }
}

/// The records of notes.
pub(crate) fn records_of(notes: &[ParsedChartNote]) -> Vec<[u8; NOTE_BYTES]> {
    notes.iter().map(ParsedChartNote::record).collect()
}

/// The tail that stands for none in the four places of a note.
const NO_TAIL: u64 = 4_294_967_295;

/// Note record number `index`, counted from 0.
///
/// ```
/// use padcheck::{ChartNoteType, Refusal, read_note};
///
/// // row 3, tail row 260, column 1, a roll
/// let record = [3, 0, 0, 0, 4, 1, 0, 0, 1, 2];
/// let note = read_note(&record, 0)?;
/// assert_eq!((note.row_index, note.column, note.tail_row_index), (3, 1, Some(260)));
/// assert_eq!(note.note_type, ChartNoteType::Roll);
/// assert_eq!(read_note(&record, 1), Err(Refusal::NoRecord));
/// # Ok::<(), Refusal>(())
/// ```
///
/// # Errors
///
/// [`Refusal::NoRecord`] where the records' length is not a multiple of 10 or has no such record,
/// [`Refusal::BadRecord`] where that record breaks a limit of what the writer makes.
pub fn read_note(records: &[u8], index: usize) -> Result<ParsedChartNote, Refusal> {
    let mut note = [0; 4];
    lent::read_note(records, index, &mut note)?;
    Ok(parsed(note))
}

/// The note with this row, tail, column and kind.
#[inline]
fn parsed([row, tail, column, kind]: [u64; 4]) -> ParsedChartNote {
    ParsedChartNote {
        row_index: row as usize,
        column: column as usize,
        note_type: kind_of(kind),
        tail_row_index: (tail != NO_TAIL).then_some(tail as usize),
    }
}

/// The note in a record that the library wrote, which [`read_note`] would accept: row and tail of four bytes each, low byte first,
/// column, kind. It is taken apart here, since a call for each record costs a tenth of the main call.
#[inline]
fn decoded(record: &[u8; NOTE_BYTES]) -> ParsedChartNote {
    let [r0, r1, r2, r3, t0, t1, t2, t3, column, kind] = *record;
    let row = u32::from_le_bytes([r0, r1, r2, r3]);
    let tail = u32::from_le_bytes([t0, t1, t2, t3]);
    parsed([row.into(), tail.into(), column.into(), kind.into()])
}

/// The notes of a chart, read from the records that the main call wrote.
#[derive(Clone, Debug)]
pub struct Notes<'a> {
    records: &'a [u8],
    left: slice::Iter<'a, [u8; NOTE_BYTES]>,
}

impl<'a> Notes<'a> {
    pub(crate) fn new(records: &'a [u8]) -> Self {
        let left = records.as_chunks().0.iter();
        Self { records, left }
    }

    /// All records, ten bytes each and back to back, for storing.
    #[must_use]
    pub fn records(&self) -> &'a [u8] {
        self.records
    }
}

impl Iterator for Notes<'_> {
    type Item = ParsedChartNote;

    // Written into the loader's loop: a call for each note costs as much as four readings.
    #[inline]
    fn next(&mut self) -> Option<ParsedChartNote> {
        self.left.next().map(decoded)
    }

    #[inline]
    fn size_hint(&self) -> (usize, Option<usize>) {
        self.left.size_hint()
    }
}

impl ExactSizeIterator for Notes<'_> {}

/// The kind with this number; a record that is accepted has one below 6.
#[inline]
fn kind_of(number: u64) -> ChartNoteType {
    match number {
        0 => ChartNoteType::Tap,
        1 => ChartNoteType::Hold,
        2 => ChartNoteType::Roll,
        3 => ChartNoteType::Mine,
        4 => ChartNoteType::Lift,
        _ => ChartNoteType::Fake,
    }
}

#[cfg(test)]
mod tests {
    use super::*;

    /// A record by its layout.
    fn record(row: u32, tail: u32, column: u8, kind: u8) -> [u8; NOTE_BYTES] {
        let mut record = [0; NOTE_BYTES];
        record[..4].copy_from_slice(&row.to_le_bytes());
        record[4..8].copy_from_slice(&tail.to_le_bytes());
        record[8..].copy_from_slice(&[column, kind]);
        record
    }

    #[test]
    fn a_record_says_here_what_the_entry_reads_in_it() {
        let rows = [0, 1, 255, 256, 65_535, 65_536, 0x0012_3456, 16_777_214];
        let mut records = Vec::new();
        for row in rows {
            for column in 0..10 {
                for kind in [0, 3, 4, 5] {
                    records.push(record(row, u32::MAX, column, kind));
                }
                for tail in [row + 1, 16_777_215] {
                    records.push(record(row, tail, column, 1));
                    records.push(record(row, tail, column, 2));
                }
            }
        }
        let bytes = records.as_flattened();
        let read: Result<Vec<_>, _> = (0..records.len()).map(|k| read_note(bytes, k)).collect();
        let notes = Notes::new(bytes);
        assert_eq!(notes.len(), records.len());
        assert_eq!(Ok(notes.collect::<Vec<_>>()), read);
        let written: Vec<_> = Notes::new(bytes).map(|note| note.record()).collect();
        assert_eq!(written, records);
    }
}
