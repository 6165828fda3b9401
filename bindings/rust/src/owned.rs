//! The calls that allocate what they answer. What else they lend is kept by the thread ([`release_buffers`](crate::release_buffers)).

use crate::buffers::{LastBeat, with_kept};
use crate::figures::{count, place};
use crate::note::records_of;
use crate::{ArrowStats, DroppedHead, Lengths, ParsedChartNote, Refusal, SheetForm, lent};

/// What the main call answers, owned.
#[derive(Clone, Debug, PartialEq)]
pub struct OwnedChart {
    /// Minimised text.
    pub text: Vec<u8>,
    /// The tally, corrected over the minimised text read back.
    pub stats: ArrowStats,
    /// For each measure how many of its minimised rows have a 1, 2 or 4.
    pub densities: Vec<usize>,
    /// One beat a minimised row.
    pub beats: Vec<f32>,
    /// The notes, in rising row, then column.
    pub notes: Vec<ParsedChartNote>,
    /// Where the last object row stands.
    pub last: LastBeat,
}

/// The main call: minimised text, tally, densities, row beats, notes and last beat.
///
/// ```
/// let chart = padcheck::minimize_chart_count_rows_notes(b"1000\n0000\n0100\n0000\n;\n", 4)?;
/// assert_eq!(chart.text, b"1000\n0100\n");
/// assert_eq!((chart.stats.total_arrows, chart.stats.total_steps), (2, 2));
/// assert_eq!(chart.beats, [0.0, 2.0]);
/// assert_eq!((chart.notes[1].row_index, chart.notes[1].column), (1, 1));
/// assert_eq!(chart.last.in_48ths, 96);
/// # Ok::<(), padcheck::Refusal>(())
/// ```
///
/// # Errors
///
/// [`Refusal::OtherLanes`] or [`Refusal::LongText`].
pub fn minimize_chart_count_rows_notes(data: &[u8], lanes: usize) -> Result<OwnedChart, Refusal> {
    with_kept(|buffers| {
        let chart = buffers.minimize_chart_count_rows_notes(data, lanes)?;
        let (stats, last) = (chart.stats, chart.last);
        let (densities, notes) = (widened(chart.densities), chart.notes.collect());
        Ok(OwnedChart {
            text: buffers.take_text(),
            stats,
            densities,
            beats: buffers.take_beats(),
            notes,
            last,
        })
    })
}

/// The kept-row call (`process_chart_in_impl` with KEEP): minimised text, tally and densities.
///
/// ```
/// let (text, stats, densities) = padcheck::process_chart_kept(b"1000\n0000\n0100\n0000\n;\n", 4)?;
/// assert_eq!(text, b"1000\n0100\n");
/// assert_eq!((stats.total_arrows, stats.left, stats.down), (2, 1, 1));
/// assert_eq!(densities, [2]);
/// # Ok::<(), padcheck::Refusal>(())
/// ```
///
/// # Errors
///
/// [`Refusal::OtherLanes`] or [`Refusal::LongText`].
pub fn process_chart_kept(
    data: &[u8],
    lanes: usize,
) -> Result<(Vec<u8>, ArrowStats, Vec<usize>), Refusal> {
    with_kept(|buffers| {
        let chart = buffers.process_chart_kept(data, lanes)?;
        let (stats, densities) = (chart.stats, widened(chart.densities));
        Ok((buffers.take_text(), stats, densities))
    })
}

/// Minimised rows, their beats, and whether any has a 2 or 4. `L` is 4, 5, 6, 8 or 10; another does not compile.
///
/// ```
/// let (rows, beats, has_heads) = padcheck::minimize_timing_rows::<4>(b"2000\n0000\n3000\n0000\n")?;
/// assert_eq!(rows, [*b"2000", *b"3000"]);
/// assert_eq!(beats, [0.0, 2.0]);
/// assert!(has_heads);
/// # Ok::<(), padcheck::Refusal>(())
/// ```
///
/// ```compile_fail
/// let _ = padcheck::minimize_timing_rows::<7>(b"1000000\n");
/// ```
///
/// # Errors
///
/// [`Refusal::LongText`].
pub fn minimize_timing_rows<const L: usize>(
    data: &[u8],
) -> Result<(Vec<[u8; L]>, Vec<f32>, bool), Refusal> {
    const { assert!(crate::is_lane_count(L), "a row has 4, 5, 6, 8 or 10 lanes") };
    let lengths = Lengths::of(data.len(), L);
    let mut rows = vec![[0; L]; lengths.text.div_ceil(L)];
    let mut beats = vec![0.0; lengths.beats];
    let mut figures = [0; 32];
    lent::minimize_timing_rows(data, L, rows.as_flattened_mut(), &mut beats, &mut figures)?;
    rows.truncate(count(&figures, place::ROWS));
    beats.truncate(count(&figures, place::ROWS));
    Ok((rows, beats, figures[place::HAS_HEADS] == 1))
}

/// For each measure how many of its minimised rows have a 1, 2 or 4.
///
/// ```
/// assert_eq!(padcheck::measure_densities(b"1000\n0000\n,\n,\n0040\n", 4)?, [1, 0, 1]);
/// # Ok::<(), padcheck::Refusal>(())
/// ```
///
/// # Errors
///
/// [`Refusal::OtherLanes`] or [`Refusal::LongText`].
pub fn measure_densities(data: &[u8], lanes: usize) -> Result<Vec<usize>, Refusal> {
    with_kept(|buffers| buffers.measure_densities(data, lanes).map(widened))
}

/// For each measure whether it has no rows or each minimised row has a 1, 2 or 4.
///
/// ```
/// assert_eq!(padcheck::equally_spaced(b"1000\n0100\n,\n,\n0040\n0000\n0030\n0000\n", 4)?, [true, true, false]);
/// # Ok::<(), padcheck::Refusal>(())
/// ```
///
/// # Errors
///
/// [`Refusal::OtherLanes`] or [`Refusal::LongText`].
pub fn equally_spaced(data: &[u8], lanes: usize) -> Result<Vec<bool>, Refusal> {
    with_kept(|buffers| {
        let spacing = buffers.equally_spaced(data, lanes)?;
        Ok(spacing.iter().map(|&spaced| spaced == 1).collect())
    })
}

/// The last object row's beat; 0 where there is none.
///
/// ```
/// let last = padcheck::chart_last_beat(b"1000\n0000\n0100\n0000\n;\n", 4)?;
/// assert_eq!((last.beat, last.in_48ths), (2.0, 96));
/// # Ok::<(), padcheck::Refusal>(())
/// ```
///
/// # Errors
///
/// [`Refusal::OtherLanes`] or [`Refusal::LongText`].
pub fn chart_last_beat(data: &[u8], lanes: usize) -> Result<LastBeat, Refusal> {
    let mut figures = [0; 32];
    lent::chart_last_beat(data, lanes, &mut figures)?;
    Ok(LastBeat::from_figures(&figures))
}

/// The judged tally of minimised text, every row judged; no flags are lent.
///
/// ```
/// let stats = padcheck::process_rows_judgable(b"2000\n0110\n3000\n", 4)?;
/// assert_eq!((stats.total_steps, stats.holds, stats.jumps, stats.hands), (2, 1, 1, 1));
/// # Ok::<(), padcheck::Refusal>(())
/// ```
///
/// # Errors
///
/// [`Refusal::OtherLanes`] or [`Refusal::LongText`].
pub fn process_rows_judgable(data: &[u8], lanes: usize) -> Result<ArrowStats, Refusal> {
    with_kept(|buffers| buffers.process_rows_judgable(data, lanes))
}

/// The judged tally of minimised text with one flag a row: 0 unjudged, else judged. A row past the flags is unjudged,
/// so without flags every row is: [`process_rows_judgable`] judges every row.
///
/// ```
/// let stats = padcheck::process_timing_rows(b"1000\n0110\n0001\n", 4, &[1, 0])?;
/// assert_eq!((stats.total_arrows, stats.fakes), (1, 3));
/// # Ok::<(), padcheck::Refusal>(())
/// ```
///
/// # Errors
///
/// [`Refusal::OtherLanes`] or [`Refusal::LongText`].
pub fn process_timing_rows(data: &[u8], lanes: usize, flags: &[u8]) -> Result<ArrowStats, Refusal> {
    with_kept(|buffers| buffers.process_timing_rows(data, lanes, flags))
}

/// The holds and rolls that came to nothing: each 2 or 4 of the minimised rows that the main call has no note of, with what
/// dropped it, in rising row, then column.
///
/// ```
/// use padcheck::{DropCause, DroppedHead, dropped_holds};
///
/// let cause = DropCause::OtherHead(1);
/// let head = DroppedHead { row: 0, column: 2, cause };
/// assert_eq!(dropped_holds(b"0020\n0040\n0030\n", 4)?, [head]);
/// assert_eq!(cause.to_string(), "another head at row 1");
/// # Ok::<(), padcheck::Refusal>(())
/// ```
///
/// # Errors
///
/// [`Refusal::OtherLanes`] or [`Refusal::LongText`].
pub fn dropped_holds(data: &[u8], lanes: usize) -> Result<Vec<DroppedHead>, Refusal> {
    with_kept(|buffers| {
        let dropped = buffers.dropped_holds(data, lanes)?;
        Ok(dropped.heads.collect())
    })
}

/// From notes back to a chart: minimised text of note records, ten bytes each, with a row count for each measure.
///
/// ```
/// // A tap in column 0 of row 0, and none on the second row and in the second measure.
/// let record = [0, 0, 0, 0, 255, 255, 255, 255, 0, 0];
/// let text = padcheck::notes_to_chart(&record, 4, &[1, 0, 1])?;
/// assert_eq!(text, b"1000\n,\n,\n0000\n");
/// # Ok::<(), padcheck::Refusal>(())
/// ```
///
/// # Errors
///
/// [`Refusal::OtherLanes`], [`Refusal::LongText`] of the text to be written, [`Refusal::NoRecord`], [`Refusal::BadRecord`],
/// [`Refusal::OutOfOrder`], [`Refusal::NotesMeet`] or [`Refusal::OtherCounts`].
pub fn notes_to_chart(records: &[u8], lanes: usize, counts: &[u32]) -> Result<Vec<u8>, Refusal> {
    with_kept(|buffers| {
        buffers.notes_to_chart(records, lanes, counts)?;
        Ok(buffers.take_text())
    })
}

/// The same of notes as [`minimize_chart_count_rows_notes`] answers them.
///
/// ```
/// let data = b"2000\n0000\n3000\n0000\n,\n0100\n";
/// let mut notes = padcheck::minimize_chart_count_rows_notes(data, 4)?.notes;
/// notes[1].column = 3;
/// let text = padcheck::parsed_notes_to_chart(&notes, 4, &[2, 1])?;
/// assert_eq!(text, b"2000\n3000\n,\n0001\n");
/// # Ok::<(), padcheck::Refusal>(())
/// ```
///
/// # Errors
///
/// [`Refusal::OtherLanes`], [`Refusal::LongText`] of the text to be written, [`Refusal::BadRecord`], also where a row or column is too large
/// for a record, [`Refusal::OutOfOrder`], [`Refusal::NotesMeet`] or [`Refusal::OtherCounts`].
pub fn parsed_notes_to_chart(
    notes: &[ParsedChartNote],
    lanes: usize,
    counts: &[u32],
) -> Result<Vec<u8>, Refusal> {
    notes_to_chart(records_of(notes).as_flattened(), lanes, counts)
}

/// The sheet of a chart, in bytes of ASCII.
///
/// ```
/// use padcheck::{SheetForm, chart_sheet};
///
/// let data = b"1000\n0000\n0100\n0000\n;\n";
/// let card = chart_sheet(data, 4, SheetForm::Card)?;
/// assert_eq!(card, b"measures 1\nrows 2\narrows 2\nsteps 2\nkeys 0\nnotes 2\nlast 96\nm 0 2 1\nn 0 0 0 -\nn 1 1 0 -\n");
/// let print = chart_sheet(data, 4, SheetForm::Print)?;
/// assert!(print.starts_with(b"measures            1\nrows                2\n"));
/// let json = chart_sheet(data, 4, SheetForm::Json)?;
/// assert!(json.starts_with(b"{\"measures\":1,\"rows\":2,\"notes\":2,\"last_beat\":{\"beats\":2,"));
/// # Ok::<(), padcheck::Refusal>(())
/// ```
///
/// While the call is made, the slice that the sheet is written to has 42 bytes for each byte of the text ([`Lengths`]), some
/// 700,000,000 for the longest one. That is address space: memory takes what the sheet has.
///
/// # Errors
///
/// [`Refusal::OtherLanes`] or [`Refusal::LongText`].
pub fn chart_sheet(data: &[u8], lanes: usize, form: SheetForm) -> Result<Vec<u8>, Refusal> {
    with_kept(|buffers| {
        buffers.chart_sheet(data, lanes, form)?;
        Ok(buffers.take_sheet())
    })
}

pub(crate) fn widened(counts: &[u32]) -> Vec<usize> {
    counts.iter().map(|&count| count as usize).collect()
}
