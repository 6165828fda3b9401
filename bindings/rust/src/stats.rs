//! The public items of rssp's `stats` that the calls here answer, under its names and with its signatures.
//!
//! A loader that uses these items alone changes its `use` line from `rssp::stats` to `padcheck::stats`:
//!
//! - functions: [`minimize_chart_and_count_with_lanes`], [`minimize_chart_count_rows`],
//!   [`minimize_chart_count_rows_notes`], [`minimize_rows_typed`], [`minimize_rows_typed_in`],
//!   [`minimize_rows_typed_in_notes`], [`minimize_chart_for_hash`], [`measure_densities`], [`measure_equally_spaced`],
//!   and [`chart_last_beat`], which rssp keeps to itself;
//! - types: [`ArrowStats`], [`ChartNoteType`], [`ParsedChartNote`], [`ChartNotesScratch`], [`MinimizedTypedRows`],
//!   [`TypedRowsScratch`].
//!
//! Which items are left out, and why, is a table in `docs/RUST.md` of the repository. Each function hands on what
//! proved calls answer; one that needs several calls says which.
//!
//! The Rust refuses nothing, so these functions have no `Result`. They panic on a text longer than
//! [`MAX_LEN`](crate::MAX_LEN), and at a lane number other than 4, 5, 6, 8 and 10, with the refusal in words; the functions
//! of the crate's root answer it instead.
//!
//! ```
//! use padcheck::stats::{ChartNotesScratch, measure_densities, minimize_chart_count_rows_notes};
//!
//! let data = b"1000\n0100\n,\n0000\n0010\n";
//! let mut notes = ChartNotesScratch::default();
//! let (text, stats, densities, beats, last) = minimize_chart_count_rows_notes(data, 4, &mut notes);
//! assert_eq!(text, data);
//! assert_eq!((stats.total_steps, last), (3, 6.0));
//! assert_eq!(densities, measure_densities(data, 4));
//! assert_eq!(beats, [0.0, 2.0, 4.0, 6.0]);
//! assert!(notes.drain().map(|note| note.column).eq([0, 1, 2]));
//! ```

use crate::owned::widened;
pub use crate::{ArrowStats, ChartNoteType, ParsedChartNote};
use crate::{Buffers, NOTE_BYTES, Notes, Refusal, is_lane_count};
use std::{fmt, mem};

/// The notes of the last chart, and the buffers that serve the next.
#[derive(Clone, Debug, Default)]
pub struct ChartNotesScratch {
    buffers: Buffers,
    /// How many notes of the last chart have not been handed out.
    notes: usize,
}

impl ChartNotesScratch {
    /// Hands out the notes of the last chart, once, and keeps their allocation.
    pub fn drain(&mut self) -> impl ExactSizeIterator<Item = ParsedChartNote> + '_ {
        let bytes = NOTE_BYTES * mem::take(&mut self.notes);
        Notes::new(&self.buffers.notes[..bytes])
    }

    /// How many notes fit without a new allocation.
    #[must_use]
    pub fn capacity(&self) -> usize {
        self.buffers.notes.capacity() / NOTE_BYTES
    }
}

/// The minimised rows of the last chart, and their allocation for the next.
#[derive(Default)]
pub struct TypedRowsScratch<const L: usize> {
    rows: Vec<[u8; L]>,
}

impl<const L: usize> TypedRowsScratch<L> {
    /// The minimised rows of the last chart.
    #[must_use]
    pub fn rows(&self) -> &[[u8; L]] {
        &self.rows
    }

    /// Forgets the rows and keeps their allocation.
    pub fn clear(&mut self) {
        self.rows.clear();
    }

    /// How many rows fit without a new allocation.
    #[must_use]
    pub fn row_capacity(&self) -> usize {
        self.rows.capacity()
    }
}

impl<const L: usize> fmt::Debug for TypedRowsScratch<L> {
    fn fmt(&self, f: &mut fmt::Formatter<'_>) -> fmt::Result {
        f.debug_struct("TypedRowsScratch")
            .field("row_capacity", &self.rows.capacity())
            .finish()
    }
}

/// What [`minimize_rows_typed`] answers: minimised text, tally, densities, minimised rows, row beats, last beat.
pub type MinimizedTypedRows<const L: usize> =
    (Vec<u8>, ArrowStats, Vec<usize>, Vec<[u8; L]>, Vec<f32>, f64);

/// Minimised text, tally, densities, row beats and last beat; the notes are in `chart_notes`.
///
/// # Panics
///
/// On a text longer than [`MAX_LEN`](crate::MAX_LEN), and at a lane number that is no lane count.
pub fn minimize_chart_count_rows_notes(
    data: &[u8],
    lanes: usize,
    chart_notes: &mut ChartNotesScratch,
) -> (Vec<u8>, ArrowStats, Vec<usize>, Vec<f32>, f64) {
    let buffers = &mut chart_notes.buffers;
    let chart = accepted(buffers.minimize_chart_count_rows_notes(data, lanes));
    chart_notes.notes = chart.notes.len();
    let (stats, last) = (chart.stats, chart.last.beat);
    let densities = widened(chart.densities);
    (
        buffers.take_text(),
        stats,
        densities,
        buffers.take_beats(),
        last,
    )
}

/// Minimised text, tally, densities, row beats and last beat: the main call without its notes.
///
/// ```
/// let (text, stats, densities, beats, last) =
///     padcheck::stats::minimize_chart_count_rows(b"1000\n0000\n0100\n0000\n;\n", 4);
/// assert_eq!((&text[..], stats.total_steps), (&b"1000\n0100\n"[..], 2));
/// assert_eq!((&densities[..], &beats[..], last), (&[2][..], &[0.0, 2.0][..], 2.0));
/// ```
///
/// # Panics
///
/// On a text longer than [`MAX_LEN`](crate::MAX_LEN), and at a lane number that is no lane count.
#[must_use]
pub fn minimize_chart_count_rows(
    data: &[u8],
    lanes: usize,
) -> (Vec<u8>, ArrowStats, Vec<usize>, Vec<f32>, f64) {
    minimize_chart_count_rows_notes(data, lanes, &mut ChartNotesScratch::default())
}

/// Minimised text, tally and densities: the main call's, whose tally is corrected over the minimised text read back.
///
/// ```
/// let (text, stats, densities) =
///     padcheck::stats::minimize_chart_and_count_with_lanes(b"1000\n0000\n,\n0011\n", 4);
/// assert_eq!((&text[..], stats.jumps), (&b"1000\n,\n0011\n"[..], 1));
/// assert_eq!(densities, [1, 1]);
/// ```
///
/// # Panics
///
/// On a text longer than [`MAX_LEN`](crate::MAX_LEN), and at a lane number that is no lane count.
#[must_use]
pub fn minimize_chart_and_count_with_lanes(
    data: &[u8],
    lanes: usize,
) -> (Vec<u8>, ArrowStats, Vec<usize>) {
    let (text, stats, densities, _, _) = minimize_chart_count_rows(data, lanes);
    (text, stats, densities)
}

/// Minimised text alone: that of the kept-row call.
///
/// ```
/// assert_eq!(padcheck::stats::minimize_chart_for_hash(b"1000\n0000\n,\n;\n", 4), b"1000\n,\n");
/// ```
///
/// # Panics
///
/// On a text longer than [`MAX_LEN`](crate::MAX_LEN), and at a lane number that is no lane count.
#[must_use]
pub fn minimize_chart_for_hash(data: &[u8], lanes: usize) -> Vec<u8> {
    accepted(Buffers::new().process_chart_kept(data, lanes))
        .text
        .to_vec()
}

/// Minimised text, tally, densities, minimised rows, row beats and last beat; see [`minimize_rows_typed_in`].
///
/// ```
/// let (text, stats, densities, rows, beats, last) =
///     padcheck::stats::minimize_rows_typed::<5>(b"00001\n00000\n");
/// assert_eq!((&text[..], stats.left), (&b"00001\n"[..], 1));
/// assert_eq!((densities, rows, beats, last), (vec![1], vec![*b"00001"], vec![0.0], 0.0));
/// ```
///
/// # Panics
///
/// On a text longer than [`MAX_LEN`](crate::MAX_LEN).
#[must_use]
pub fn minimize_rows_typed<const L: usize>(data: &[u8]) -> MinimizedTypedRows<L> {
    let mut scratch = TypedRowsScratch::default();
    let (text, stats, densities, beats, last) = minimize_rows_typed_in(data, &mut scratch);
    (text, stats, densities, scratch.rows, beats, last)
}

/// Minimised text, tally, densities, row beats and last beat; the minimised rows are in `scratch`.
///
/// Three calls: text, tally and densities are the kept-row call's, rows and beats those of the timing rows, the last beat
/// is the scan's. `L` is 4, 5, 6, 8 or 10; another, which the Rust takes too, does not compile here.
///
/// ```
/// use padcheck::stats::{TypedRowsScratch, minimize_rows_typed_in};
///
/// let mut scratch = TypedRowsScratch::<4>::default();
/// let (text, _, densities, beats, last) = minimize_rows_typed_in(b"1000\n0000\n0100\n0000\n", &mut scratch);
/// assert_eq!(scratch.rows(), [*b"1000", *b"0100"]);
/// assert_eq!((&text[..], &densities[..]), (&b"1000\n0100\n"[..], &[2][..]));
/// assert_eq!((&beats[..], last), (&[0.0, 2.0][..], 2.0));
/// ```
///
/// ```compile_fail
/// let _ = padcheck::stats::minimize_rows_typed::<7>(b"1000000\n");
/// ```
///
/// # Panics
///
/// On a text longer than [`MAX_LEN`](crate::MAX_LEN).
pub fn minimize_rows_typed_in<const L: usize>(
    data: &[u8],
    scratch: &mut TypedRowsScratch<L>,
) -> (Vec<u8>, ArrowStats, Vec<usize>, Vec<f32>, f64) {
    let mut buffers = Buffers::new();
    let (text, stats, densities) = kept(&mut buffers, data, L);
    let beats = typed_rows(&mut buffers, data, scratch);
    (text, stats, densities, beats, chart_last_beat(data, L))
}

/// The same, and the notes are in `chart_notes`. Two calls: rows and beats are those of the timing rows, all else is the
/// main call's.
///
/// # Panics
///
/// On a text longer than [`MAX_LEN`](crate::MAX_LEN).
pub fn minimize_rows_typed_in_notes<const L: usize>(
    data: &[u8],
    scratch: &mut TypedRowsScratch<L>,
    chart_notes: &mut ChartNotesScratch,
) -> (Vec<u8>, ArrowStats, Vec<usize>, Vec<f32>, f64) {
    let (text, stats, densities, _, last) = minimize_chart_count_rows_notes(data, L, chart_notes);
    let beats = typed_rows(&mut chart_notes.buffers, data, scratch);
    (text, stats, densities, beats, last)
}

/// Text, tally and densities of the kept-row call.
fn kept(buffers: &mut Buffers, data: &[u8], lanes: usize) -> (Vec<u8>, ArrowStats, Vec<usize>) {
    let chart = accepted(buffers.process_chart_kept(data, lanes));
    (chart.text.to_vec(), chart.stats, widened(chart.densities))
}

/// The beats of the timing rows; the rows go into `scratch`.
fn typed_rows<const L: usize>(
    buffers: &mut Buffers,
    data: &[u8],
    scratch: &mut TypedRowsScratch<L>,
) -> Vec<f32> {
    const { assert!(is_lane_count(L), "a row has 4, 5, 6, 8 or 10 lanes") };
    let timing = accepted(buffers.minimize_timing_rows(data, L));
    let (rows, _) = timing.rows.as_chunks();
    scratch.rows.clear();
    scratch.rows.extend_from_slice(rows);
    timing.beats.to_vec()
}

/// For each measure how many of its minimised rows have a 1, 2 or 4.
///
/// # Panics
///
/// On a text longer than [`MAX_LEN`](crate::MAX_LEN), and at a lane number that is no lane count.
#[must_use]
pub fn measure_densities(data: &[u8], lanes: usize) -> Vec<usize> {
    accepted(crate::measure_densities(data, lanes))
}

/// For each measure whether it has no rows or each minimised row has a 1, 2 or 4.
///
/// # Panics
///
/// On a text longer than [`MAX_LEN`](crate::MAX_LEN), and at a lane number that is no lane count.
#[must_use]
pub fn measure_equally_spaced(data: &[u8], lanes: usize) -> Vec<bool> {
    accepted(crate::equally_spaced(data, lanes))
}

/// The last object row's beat; 0 where there is none.
///
/// # Panics
///
/// On a text longer than [`MAX_LEN`](crate::MAX_LEN), and at a lane number that is no lane count.
#[must_use]
pub fn chart_last_beat(data: &[u8], lanes: usize) -> f64 {
    accepted(crate::chart_last_beat(data, lanes)).beat
}

fn accepted<T>(answer: Result<T, Refusal>) -> T {
    answer.unwrap_or_else(|refusal| panic!("{refusal}"))
}

#[cfg(test)]
mod tests {
    use super::*;
    use crate::MAX_LEN;

    #[test]
    fn the_longest_text_is_answered() {
        let data = vec![b'\n'; MAX_LEN];
        assert_eq!(measure_densities(&data, 4), [0]);
        assert_eq!(measure_equally_spaced(&data, 4), [true]);
        assert_eq!(chart_last_beat(&data, 4).to_bits(), 0);
    }

    #[test]
    fn notes_are_handed_out_once() {
        let mut notes = ChartNotesScratch::default();
        assert_eq!(notes.drain().len(), 0);
        assert_eq!(notes.capacity(), 0);
        let _ = minimize_chart_count_rows_notes(b"1000\n0110\n", 4, &mut notes);
        let capacity = notes.capacity();
        assert!(capacity >= 3);
        assert_eq!(notes.drain().len(), 3);
        assert_eq!(notes.drain().len(), 0);
        assert_eq!(notes.capacity(), capacity);
        let _ = minimize_chart_count_rows_notes(b"000M\n", 4, &mut notes);
        let mine = ParsedChartNote {
            row_index: 0,
            column: 3,
            note_type: ChartNoteType::Mine,
            tail_row_index: None,
        };
        assert!(notes.drain().eq([mine]));
    }

    #[test]
    #[should_panic(expected = "refused 12: the lane number is none of 4, 5, 6, 8 and 10")]
    fn another_lane_number_panics_in_words() {
        let _ = minimize_chart_count_rows(b"1000\n", 7);
    }

    #[test]
    #[should_panic(expected = "refused 1: the text or file, or the text to be written, is longer")]
    fn a_longer_text_panics_in_words() {
        let _ = measure_densities(&vec![b'\n'; MAX_LEN + 1], 4);
    }
}
