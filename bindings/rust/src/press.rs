//! Presses of panels, the records a trace of them is stored in, and what a trace comes to beside the notes.

use crate::note::records_of;
use crate::{PRESS_BYTES, ParsedChartNote, Refusal, lent};
use std::array;

/// How many columns have counts of their own.
const COLUMNS: usize = 10;

/// A press of a panel. Rows are numbered as those of notes are, columns from 0. Presses are ordered as they stand in a trace, by row, then
/// column.
#[derive(Debug, Clone, Copy, PartialEq, Eq, PartialOrd, Ord, Hash)]
pub struct Press {
    /// Row of the press, which may be past the chart's last row.
    pub row: u32,
    /// Column of the press.
    pub column: u8,
}

impl Press {
    /// The press's record: row of four bytes, low byte first, column.
    ///
    /// ```
    /// use padcheck::Press;
    ///
    /// let press = Press { row: 260, column: 3 };
    /// assert_eq!(press.to_bytes(), [4, 1, 0, 0, 3]);
    /// assert_eq!(Press::from_bytes(press.to_bytes()), press);
    /// ```
    #[must_use]
    pub const fn to_bytes(self) -> [u8; PRESS_BYTES] {
        let [r0, r1, r2, r3] = self.row.to_le_bytes();
        [r0, r1, r2, r3, self.column]
    }

    /// The press in a record. Of a trace all are read so:
    ///
    /// ```
    /// use padcheck::Press;
    ///
    /// let trace = [4, 1, 0, 0, 3, 4, 1, 0, 0, 5];
    /// let presses = trace.as_chunks().0.iter().copied().map(Press::from_bytes);
    /// assert!(presses.eq([3, 5].map(|column| Press { row: 260, column })));
    /// ```
    #[must_use]
    pub const fn from_bytes([r0, r1, r2, r3, column]: [u8; PRESS_BYTES]) -> Self {
        let row = u32::from_le_bytes([r0, r1, r2, r3]);
        Self { row, column }
    }
}

/// What a trace comes to beside the notes. Played notes are the taps, holds and rolls.
#[derive(Debug, Clone, Copy, Default, PartialEq, Eq, Hash)]
pub struct PressCounts {
    /// Presses that stand where a played note does, the first of each place.
    pub hits: usize,
    /// All other presses.
    pub strays: usize,
    /// Played notes without a press.
    pub misses: usize,
    /// The hits and misses of the columns 0 to 9.
    pub columns: [ColumnPresses; COLUMNS],
}

/// The hits and misses of a column.
#[derive(Debug, Clone, Copy, Default, PartialEq, Eq, Hash)]
pub struct ColumnPresses {
    /// Hits that stand in it.
    pub hits: usize,
    /// Misses that stand in it.
    pub misses: usize,
}

impl PressCounts {
    /// The counts in the 23 numbers of an accepted call ([`lent::press_trace`]).
    #[must_use]
    pub fn from_presses(presses: &[u64; 23]) -> Self {
        // None is more than the presses or notes that a slice has, so each fits.
        let [hits, strays, misses, columns @ ..] = presses.map(|count| count as usize);
        let columns = array::from_fn(|column| ColumnPresses {
            hits: columns[column],
            misses: columns[COLUMNS + column],
        });
        Self {
            hits,
            strays,
            misses,
            columns,
        }
    }
}

/// A pad trace set against note records: presses that hit a played note, presses that are strays, played notes that are missed. Records stand
/// in rising row, then column, as the main call leaves them; presses do too, and one may stand twice.
///
/// ```
/// use padcheck::{Buffers, ColumnPresses, Press, press_trace};
///
/// let mut buffers = Buffers::new();
/// let chart = buffers.minimize_chart_count_rows_notes(b"1000\n0100\n00M0\n", 4)?;
/// let presses = [Press { row: 0, column: 0 }, Press { row: 2, column: 2 }];
/// let trace = presses.map(Press::to_bytes);
/// let counts = press_trace(chart.notes.records(), trace.as_flattened())?;
/// // The second press is on a mine, and none is on the second tap.
/// assert_eq!((counts.hits, counts.strays, counts.misses), (1, 1, 1));
/// assert_eq!(counts.columns[0], ColumnPresses { hits: 1, misses: 0 });
/// assert_eq!(counts.columns[1], ColumnPresses { hits: 0, misses: 1 });
/// # Ok::<(), padcheck::Refusal>(())
/// ```
///
/// # Errors
///
/// [`Refusal::NoRecord`] where the records' length is not a multiple of 10, [`Refusal::BadRecord`] where a record breaks a limit of what the
/// writer makes, [`Refusal::OutOfOrder`] where a note does not stand before the next, [`Refusal::BadTrace`] where the trace's length is not a
/// multiple of 5, a column is over 9, or a press falls in row, or in column within a row. Each is looked for in all records before the next.
pub fn press_trace(records: &[u8], trace: &[u8]) -> Result<PressCounts, Refusal> {
    let mut presses = [0; 23];
    lent::press_trace(records, trace, &mut presses)?;
    Ok(PressCounts::from_presses(&presses))
}

/// The same of notes as [`minimize_chart_count_rows_notes`](crate::minimize_chart_count_rows_notes) answers them, and of presses.
///
/// ```
/// use padcheck::{Press, minimize_chart_count_rows_notes, parsed_press_trace};
///
/// let notes = minimize_chart_count_rows_notes(b"1002\n0000\n0103\n0000\n", 4)?.notes;
/// let mut presses = [(0, 0), (0, 3), (1, 1)].map(|(row, column)| Press { row, column });
/// let counts = parsed_press_trace(&notes, &presses)?;
/// assert_eq!((counts.hits, counts.strays, counts.misses), (3, 0, 0));
/// // The last one a row late.
/// presses[2].row = 2;
/// let counts = parsed_press_trace(&notes, &presses)?;
/// assert_eq!((counts.hits, counts.strays, counts.misses), (2, 1, 1));
/// # Ok::<(), padcheck::Refusal>(())
/// ```
///
/// # Errors
///
/// [`Refusal::BadRecord`], also where a row or column is too large for a record, [`Refusal::OutOfOrder`] or [`Refusal::BadTrace`].
pub fn parsed_press_trace(
    notes: &[ParsedChartNote],
    presses: &[Press],
) -> Result<PressCounts, Refusal> {
    let trace: Vec<_> = presses.iter().copied().map(Press::to_bytes).collect();
    press_trace(records_of(notes).as_flattened(), trace.as_flattened())
}
