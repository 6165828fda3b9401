//! From notes back to a chart: a plain reference, which the Rust does not have. Each note is laid into a table of cells, whose rows are cut into
//! measures by the row counts; whether a measure could be minimised further the Rust's `reduce_rows` says.

use crate::calls::{
    Answer, Figures, MEASURES, NO_TAIL, NOTE_BYTES, NOTES, ROWS, TEXT_BYTES,
    minimize_chart_count_rows_notes,
};
use crate::entry::{MAX_LEN, is_lane_count, lay, read_notes};
use crate::leaves::reduce_rows;
use std::collections::BTreeMap;

/// The entry's name without its prefix.
pub const NAME: &str = "notes_to_chart";

/// The refusals that the call can give, in their order.
pub const REFUSALS: [u32; 8] = [12, 1, 7, 8, 13, 14, 15, 2];

/// The letters of the kinds, and that of a tail.
const LETTERS: &[u8; 6] = b"124MLF";
const TAIL: u8 = b'3';

/// A note as it is read back: row, tail row, column, kind.
type Note = [u64; 4];

/// The cells that notes fill, by column and row.
type Cells = BTreeMap<(u64, u64), u8>;

/// What the call is given beside the slice for the text.
#[derive(Clone, Debug, Default, PartialEq, Eq)]
pub struct Given {
    pub records: Vec<u8>,
    pub lanes: usize,
    pub counts: Vec<u32>,
}

impl Given {
    /// The notes and row counts of a text, as the main call reads it.
    #[must_use]
    pub fn of_text(text: &[u8], lanes: usize) -> Self {
        Self::of_answer(&minimize_chart_count_rows_notes(text, lanes), lanes)
    }

    /// The notes and row counts that the main call answers.
    #[must_use]
    pub fn of_answer(main: &Answer, lanes: usize) -> Self {
        Self {
            records: main.notes.clone(),
            lanes,
            counts: row_counts(&main.text, lanes),
        }
    }

    /// Notes and row counts that can be written: those of a text, or, where a measure of what is written for them could be minimised further,
    /// those of that chart.
    #[must_use]
    pub fn writable(text: &[u8], lanes: usize) -> Self {
        let given = Self::of_text(text, lanes);
        let other = match given.chart() {
            Err(15) => given.unminimised(),
            _ => None,
        };
        other.map_or(given, |chart| Self::of_text(&chart, lanes))
    }

    /// The length of the text to be written: L + 1 bytes a row, and 2 for each `,`.
    #[must_use]
    pub fn text_len(&self) -> u128 {
        let rows: u128 = self.counts.iter().map(|&count| u128::from(count)).sum();
        let commas = self.counts.len().saturating_sub(1);
        (self.lanes as u128 + 1) * rows + 2 * commas as u128
    }

    /// The text that is written, whatever room there is for it.
    ///
    /// # Errors
    ///
    /// All refusals but 2.
    pub fn chart(&self) -> Result<Vec<u8>, u32> {
        if !is_lane_count(self.lanes) {
            return Err(12);
        }
        if self.text_len() > MAX_LEN as u128 {
            return Err(1);
        }
        let notes = read_notes(&self.records)?;
        if !is_in_order(&notes, self.lanes) {
            return Err(13);
        }
        let cells = laid(&notes).ok_or(14_u32)?;
        let rows = self.rows(&cells).ok_or(15_u32)?;
        self.cut(&rows).ok_or(15)
    }

    /// The rows back to back; none where a cell stands below the last one.
    fn rows(&self, cells: &Cells) -> Option<Vec<u8>> {
        let total: usize = self.counts.iter().map(|&count| count as usize).sum();
        let mut rows = vec![b'0'; total * self.lanes];
        for (&(column, row), &letter) in cells {
            *rows.get_mut(row as usize * self.lanes + column as usize)? = letter;
        }
        Some(rows)
    }

    /// The text of these rows; none where there is no measure, or one could be minimised further.
    fn cut(&self, rows: &[u8]) -> Option<Vec<u8>> {
        let measures = self.measures(rows);
        let is_refused = measures.is_empty() || measures.iter().any(|rows| self.shrinks(rows));
        (!is_refused).then(|| self.text(&measures))
    }

    /// Whether minimising leaves a measure fewer rows.
    fn shrinks(&self, rows: &[u8]) -> bool {
        !rows.is_empty() && reduce_rows(self.lanes, rows).0 < rows.len() / self.lanes
    }

    /// The rows of each measure, back to back.
    fn measures<'a>(&self, rows: &'a [u8]) -> Vec<&'a [u8]> {
        let mut rest = rows;
        let counts = self.counts.iter();
        let measures = counts.map(|&count| {
            let (measure, after) = rest.split_at(count as usize * self.lanes);
            rest = after;
            measure
        });
        measures.collect()
    }

    /// Byte 10 after each row, and a line of a `,` between two measures.
    fn text(&self, measures: &[&[u8]]) -> Vec<u8> {
        let lines = measures.iter().map(|measure| {
            let rows = measure.chunks_exact(self.lanes);
            rows.flat_map(|row| [row, b"\n"].concat()).collect()
        });
        lines.collect::<Vec<Vec<u8>>>().join(&b",\n"[..])
    }

    /// The text of notes and row counts that are refused for a measure of it which could be minimised further.
    fn unminimised(&self) -> Option<Vec<u8>> {
        let notes = read_notes(&self.records).ok()?;
        let rows = self.rows(&laid(&notes)?)?;
        Some(self.text(&self.measures(&rows)))
    }

    /// The call entire: returns its number and alters slice and figures as the entry does.
    pub fn enter(&self, text: &mut [u8], figures: &mut Figures) -> u32 {
        let chart = match self.chart() {
            Ok(chart) => chart,
            Err(number) => return number,
        };
        if text.len() < chart.len() {
            return 2;
        }
        lay(text, &chart);
        *figures = [0; 32];
        figures[TEXT_BYTES] = chart.len() as u64;
        figures[MEASURES] = self.counts.len() as u64;
        figures[ROWS] = self.counts.iter().map(|&count| u64::from(count)).sum();
        figures[NOTES] = (self.records.len() / NOTE_BYTES) as u64;
        0
    }
}

/// Whether each note stands above the one before by row, then column, and every column is below L.
fn is_in_order(notes: &[Note], lanes: usize) -> bool {
    let place = |&[row, _, column, _]: &Note| (row, column);
    let rises = notes
        .windows(2)
        .all(|pair| place(&pair[0]) < place(&pair[1]));
    rises && notes.iter().all(|&[_, _, column, _]| column < lanes as u64)
}

/// The table of cells; none where a cell is wanted twice, or a typed cell falls inside a hold or roll of its column.
fn laid(notes: &[Note]) -> Option<Cells> {
    let mut cells = Cells::new();
    for &[row, tail, column, kind] in notes {
        let head = (column, row, LETTERS[kind as usize]);
        let tail = (tail != u64::from(NO_TAIL)).then_some((column, tail, TAIL));
        for (column, row, letter) in [head].into_iter().chain(tail) {
            if cells.insert((column, row), letter).is_some() {
                return None;
            }
        }
    }
    let held = notes
        .iter()
        .filter(|&&[_, tail, ..]| tail != u64::from(NO_TAIL));
    for &[row, tail, column, _] in held {
        let mut inside = cells.range((column, row + 1)..(column, tail));
        if inside.any(|(_, &letter)| letter != TAIL) {
            return None;
        }
    }
    Some(cells)
}

/// How many rows each measure of a minimised text has: a row of it never begins with `,`.
#[must_use]
pub fn row_counts(text: &[u8], lanes: usize) -> Vec<u32> {
    let (mut counts, mut rows, mut rest) = (Vec::new(), 0, text);
    while let Some(first) = rest.first() {
        if *first == b',' {
            counts.push(rows);
            (rows, rest) = (0, &rest[2..]);
        } else {
            (rows, rest) = (rows + 1, &rest[lanes + 1..]);
        }
    }
    counts.push(rows);
    counts
}

/// The record of a note: row, tail row, column, kind.
#[must_use]
pub fn record([row, tail, column, kind]: [u32; 4]) -> [u8; NOTE_BYTES] {
    let [r0, r1, r2, r3] = row.to_le_bytes();
    let [t0, t1, t2, t3] = tail.to_le_bytes();
    [r0, r1, r2, r3, t0, t1, t2, t3, column as u8, kind as u8]
}
